// by a method of a method
pub fn result(text: &str) -> Result<&str, String> {
    let owned = text.to_string();
    let first = owned.split(' ').next().ok_or("nothing")?;
    Ok(first)
}
