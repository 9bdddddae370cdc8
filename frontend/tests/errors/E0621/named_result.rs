// the result has a name that an argument lacks
pub fn choose<'a>(left: &'a str, right: &str) -> &'a str {
    if left.is_empty() {
        right
    } else {
        left
    }
}
