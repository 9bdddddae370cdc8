// a closure took it
pub fn closure(list: Vec<u32>) -> usize {
    let size = move || list.len();
    size() + list.len()
}
