// in an async body, over an await
async fn rest() {}
pub async fn work(mut list: Vec<u32>) -> usize {
    let first = &mut list;
    rest().await;
    let second = &mut list;
    first.push(1);
    second.len()
}
