// a binding of an arm
pub fn binding(slot: Option<String>) -> usize {
    let mut kept: &str = "";
    match slot {
        Some(word) => kept = &word,
        None => {}
    }
    kept.len()
}
