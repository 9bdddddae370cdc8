// what an `impl` result captures before edition 2024
use std::fmt::Display;
pub fn anonymous(text: &str) -> impl Display {
    text.len()
}
pub fn hidden(text: &str) -> impl Display {
    text
}
pub fn bound<'a>(text: &'a str) -> impl Display + 'a {
    text
}
pub fn two<'a, 'b>(one: &'a str, other: &'b str) -> impl Display + 'a {
    if one.is_empty() { other } else { one }
}
pub fn used(mut text: String) -> String {
    let size = anonymous(&text);
    text.push('a');
    format!("{size}")
}
pub fn kept(mut text: String) -> String {
    let size = bound(&text);
    text.push('a');
    format!("{size}")
}
pub fn generic<T: Display>(one: T) -> impl Display {
    one
}
pub fn of_generic(mut text: String) -> String {
    let one = generic(&text);
    text.push('a');
    format!("{one}")
}
