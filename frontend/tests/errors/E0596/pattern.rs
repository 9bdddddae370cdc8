// a pattern's variable
pub fn pattern(slot: Option<String>) -> usize {
    if let Some(word) = slot {
        word.push('a');
        return word.len();
    }
    0
}
