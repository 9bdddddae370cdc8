// a method of a temporary
pub fn method() -> usize {
    let word = String::from(" a ").trim();
    word.len()
}
