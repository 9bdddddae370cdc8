// a pattern borrows what is matched
pub fn arm(slot: &mut Option<String>) {
    match slot {
        Some(word) => {
            let size = slot.is_some();
            word.push_str(&size.to_string());
        }
        None => {}
    }
}
