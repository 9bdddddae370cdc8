// a borrow over an await
async fn rest(list: &mut Vec<u32>) {
    list.push(1);
}
pub async fn work(mut list: Vec<u32>) -> usize {
    rest(&mut list).await;
    let first = &list[0];
    println!("{first}");
    rest(&mut list).await;
    list.len()
}
