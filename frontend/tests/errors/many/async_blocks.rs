// what async blocks and functions hold
use std::future::Future;
use std::pin::Pin;
async fn wait() {}
fn spawn(_: impl Future<Output = ()> + 'static) {}
pub fn borrowed(text: String) -> impl Future<Output = usize> {
    async {
        wait().await;
        text.len()
    }
}
pub fn spawned(text: &str) {
    spawn(async move {
        println!("{text}");
    });
}
pub fn local() {
    let text = String::new();
    spawn(async {
        println!("{text}");
    });
}
pub async fn held(mut list: Vec<u32>) -> u32 {
    let first = &list[0];
    wait().await;
    list.clear();
    wait().await;
    *first
}
pub async fn two(mut list: Vec<u32>) {
    let one = async { list.push(1) };
    let other = async { list.push(2) };
    one.await;
    other.await;
}
pub fn boxed<'a>(text: &'a str) -> Pin<Box<dyn Future<Output = usize>>> {
    Box::pin(async move { text.len() })
}
pub async fn inside() -> usize {
    let mut best = "";
    {
        let text = String::new();
        best = &text;
        wait().await;
    }
    best.len()
}
