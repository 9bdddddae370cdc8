// a temporary that is written
pub fn writes() -> usize {
    let list = vec![3, 1].iter_mut();
    list.len()
}
