// an arm moves what is matched by reference
pub fn take(slot: Option<String>) -> Option<String> {
    match &slot {
        Some(word) => {
            let other = slot;
            println!("{word}");
            other
        }
        None => None,
    }
}
