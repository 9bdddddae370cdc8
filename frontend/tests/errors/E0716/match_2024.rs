// edition: 2024
// the temporary of a block's value is gone with the block
pub fn blocks() -> usize {
    let word = { String::from(" text").trim() };
    word.len()
}
