// the list goes while its iterator is there
pub fn rest(list: Vec<String>) -> Vec<String> {
    let mut items = list.iter();
    items.next();
    let moved = list;
    println!("{}", items.count());
    moved
}
