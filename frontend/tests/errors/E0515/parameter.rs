// a parameter by value is the function's own
pub fn own(text: String) -> &'static str {
    text.as_str()
}
