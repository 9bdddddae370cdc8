// a future that must live forever
use std::future::Future;
fn spawn(_: impl Future<Output = usize> + 'static) {}
pub fn start(word: &str) {
    spawn(async move { word.len() });
}
