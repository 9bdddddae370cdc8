// held over an await
async fn pause() {}
pub async fn hold(list: &mut Vec<u32>) -> u32 {
    let first = &list[0];
    list.push(1);
    pause().await;
    *first
}
