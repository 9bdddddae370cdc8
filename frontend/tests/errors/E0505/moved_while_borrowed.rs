// moved while a slice of it is alive
pub fn send(text: String) -> usize {
    let word = text.trim();
    drop(text);
    word.len()
}
