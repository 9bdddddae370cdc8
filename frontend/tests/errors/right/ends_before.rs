// a borrow ends at its last use
pub fn ends(mut list: Vec<u32>) -> usize {
    let first = &list[0];
    println!("{first}");
    list.push(1);
    let last = list.last();
    println!("{last:?}");
    list.clear();
    list.len()
}
