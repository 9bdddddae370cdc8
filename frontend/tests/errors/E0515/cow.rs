// a borrow in an enum
use std::borrow::Cow;
pub fn cow(text: &str) -> Cow<'_, str> {
    let lower = text.to_lowercase();
    Cow::Borrowed(&lower)
}
