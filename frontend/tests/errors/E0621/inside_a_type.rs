// inside a type
pub fn first<'a>(list: &[&str], other: &'a str) -> &'a str {
    list.first().copied().unwrap_or(other)
}
