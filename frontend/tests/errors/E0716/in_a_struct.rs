// a struct of a temporary's borrow
pub struct Label<'a> {
    text: &'a str,
}
pub fn label(number: u32) -> usize {
    let label = Label { text: number.to_string().as_str() };
    label.text.len()
}
