// an async block
use std::future::Future;
pub fn later(text: String) -> impl Future<Output = usize> {
    async { text.len() }
}
