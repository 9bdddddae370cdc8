// through a function
fn same(word: &str) -> &str {
    word
}
pub fn through() -> usize {
    let word = same(&String::from("word"));
    word.len()
}
