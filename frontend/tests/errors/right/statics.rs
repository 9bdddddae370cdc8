// what lives forever
static WORDS: [&str; 2] = ["one", "two"];
const EMPTY: &str = "";
pub fn find(letter: char) -> &'static str {
    WORDS.iter().find(|word| word.starts_with(letter)).copied().unwrap_or(EMPTY)
}
pub fn boxed() -> &'static mut Vec<u32> {
    Box::leak(Box::new(vec![1]))
}
