// edition: 2024
// edition 2024 captures all lifetimes
use std::fmt::Display;
pub fn anonymous(text: &str) -> impl Display {
    text.len()
}
pub fn none(text: &str) -> impl Display + use<> {
    text.len()
}
pub fn some<'a, 'b>(one: &'a str, _: &'b str) -> impl Display + use<'a> {
    one.len()
}
pub fn used(mut text: String) -> String {
    let size = anonymous(&text);
    text.push('a');
    format!("{size}")
}
pub fn free(mut text: String) -> String {
    let size = none(&text);
    text.push('a');
    format!("{size}")
}
pub fn one_of_two(mut text: String, mut other: String) -> String {
    let size = some(&text, &other);
    other.push('a');
    text.push('a');
    format!("{size}")
}
pub fn outer() -> impl Display {
    let text = String::new();
    anonymous(&text)
}
pub fn in_a_method() -> usize {
    let both;
    {
        let text = String::new();
        both = anonymous(&text);
    }
    both.to_string().len()
}
