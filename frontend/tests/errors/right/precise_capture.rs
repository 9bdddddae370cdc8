// edition: 2024
// `use<>` says that nothing is captured
fn size(text: &str) -> impl Fn() -> usize + use<> {
    let size = text.len();
    move || size
}
pub fn later(mut text: String) -> usize {
    let size = size(&text);
    text.clear();
    size()
}
