// edition: 2024
// each `impl` result captures all lifetimes of its arguments
fn size(text: &String) -> impl Fn() -> usize {
    let size = text.len();
    move || size
}
pub fn later(mut text: String) -> usize {
    let size = size(&text);
    text.clear();
    size()
}
