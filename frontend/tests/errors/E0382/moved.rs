// used after it was moved
pub fn moved(text: String) -> usize {
    drop(text);
    text.len()
}
