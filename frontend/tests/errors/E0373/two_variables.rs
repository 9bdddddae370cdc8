// two of its variables
pub fn two(left: String, right: String) -> impl Fn() -> usize {
    || left.len() + right.len()
}
