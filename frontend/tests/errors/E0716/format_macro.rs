// a text that a macro makes
pub fn text(number: u32) -> usize {
    let text: &str = format!("{number}").as_str();
    text.len()
}
