// edition: 2024
// the result captures the lifetime of its argument, and yet lives forever
fn length(text: &mut String) -> impl Fn() -> usize + 'static {
    let length = text.len();
    move || length
}
pub fn both(text: &mut String) -> usize {
    let before = length(text);
    let after = length(text);
    before() + after()
}
