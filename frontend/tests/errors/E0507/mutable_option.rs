// out of an option behind a reference
pub fn option(slot: &mut Option<String>) -> String {
    slot.unwrap()
}
