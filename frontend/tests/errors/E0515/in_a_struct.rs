// a struct of a borrow
pub struct Word<'a> {
    text: &'a str,
}
pub fn word(line: &str) -> Word<'_> {
    let lower = line.to_lowercase();
    Word { text: lower.trim() }
}
