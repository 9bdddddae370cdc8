// errors of two codes in two functions, and a right one
pub fn moved(text: String) -> usize {
    let word = text.as_str();
    drop(text);
    word.len()
}
pub fn right(text: &str) -> usize {
    text.len()
}
pub fn set(mut number: u32) -> u32 {
    let view = &number;
    number = 2;
    *view
}
