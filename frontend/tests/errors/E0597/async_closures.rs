// edition: 2024
pub fn borrowed(text: String) -> impl AsyncFn() -> usize {
    async || text.len()
}
pub fn boxed(text: String) -> Box<dyn Fn() -> usize> {
    let work = async || text.len();
    Box::new(move || { let _ = &work; 1 })
}
pub fn passed(text: String) {
    spawn(async || println!("{text}"));
}
fn spawn(_: impl AsyncFn() + 'static) {}
pub fn block() -> usize {
    let kept;
    {
        let text = String::new();
        kept = async || text.len();
    }
    drop(kept);
    1
}
pub fn mutable(mut list: Vec<u32>) -> impl AsyncFnMut() {
    async || list.push(1)
}
pub async fn wait() {}
pub async fn between(list: &mut Vec<u32>) {
    let mut add = async || {
        wait().await;
        list.push(1)
    };
    list.push(2);
    add().await;
}
pub async fn twice(list: &mut Vec<u32>) {
    let mut one = async || list.push(1);
    let mut other = async || list.push(2);
    one().await;
    other().await;
}
pub async fn moved(text: String) -> usize {
    let size = async || text.len();
    drop(text);
    size().await
}
