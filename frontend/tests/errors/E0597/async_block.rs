// an async block that is given back borrows a local variable
use std::future::Future;
pub fn later(word: &str) -> impl Future<Output = usize> {
    let text = word.to_string();
    let view = &text;
    async move { view.len() }
}
