// guards that read what is matched
pub fn guards(slot: &mut Option<String>) -> usize {
    match slot {
        Some(word) if word.len() > 3 => {
            word.clear();
            3
        }
        Some(word) if word.is_empty() => 0,
        Some(word) => word.len(),
        None => {
            *slot = Some(String::new());
            0
        }
    }
}
