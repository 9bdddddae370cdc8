// an iterator over a local variable
pub fn letters(word: &str) -> impl Iterator<Item = char> + '_ {
    let upper = word.to_uppercase();
    upper.chars()
}
