// a closure reads what is written
pub fn watch() -> usize {
    let mut list = vec![1];
    let size = || list.len();
    list.push(2);
    size()
}
