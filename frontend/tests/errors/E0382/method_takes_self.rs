// a method that takes `self`
pub fn method(text: String) -> usize {
    let bytes = text.into_bytes();
    bytes.len() + text.len()
}
