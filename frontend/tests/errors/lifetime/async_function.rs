// an async function with two names
pub async fn either<'a, 'b>(left: &'a str, right: &'b str) -> &'a str {
    if left.is_empty() {
        return right;
    }
    left
}
