// a closure takes it
pub fn hand() -> usize {
    let list = vec![1, 2];
    let first = &list[0];
    let size = move || list.len();
    size() + *first
}
