// by a pattern
pub struct Pair {
    left: String,
    right: String,
}
impl Drop for Pair {
    fn drop(&mut self) {}
}
pub fn take(pair: Pair) -> usize {
    let Pair { left, right } = pair;
    left.len() + right.len()
}
