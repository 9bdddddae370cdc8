// the result lives forever
pub fn forever(word: &str) -> &'static str {
    word
}
