// a closure writes what is read
pub fn edit() -> usize {
    let mut list = vec![1];
    let mut add = |item: u32| list.push(item);
    let size = list.len();
    add(2);
    size
}
