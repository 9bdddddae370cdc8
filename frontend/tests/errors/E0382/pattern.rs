// a pattern moved it
pub fn pattern(slot: Option<String>) -> usize {
    if let Some(word) = slot {
        drop(word);
    }
    slot.map_or(0, |word| word.len())
}
