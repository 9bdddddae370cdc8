// the option is replaced while its value is borrowed
pub fn replace(mut slot: Option<String>) -> usize {
    let word = slot.as_ref();
    slot = None;
    word.map_or(0, |word| word.len()) + slot.iter().count()
}
