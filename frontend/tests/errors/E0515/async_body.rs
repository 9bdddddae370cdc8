// from an async function
pub async fn read(name: &str) -> &str {
    let text = name.repeat(2);
    text.as_str()
}
