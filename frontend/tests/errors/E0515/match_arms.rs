// in one arm alone
pub fn arms(word: Option<&str>) -> &str {
    let other = String::from("other");
    match word {
        Some(word) => word,
        None => &other,
    }
}
