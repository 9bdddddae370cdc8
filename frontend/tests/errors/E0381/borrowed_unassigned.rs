// borrowed before it has a value
pub fn borrowed() -> usize {
    let text: String;
    let view = &text;
    view.len()
}
