// a list that a macro makes
pub fn macros() -> usize {
    let words = vec!["a", "b"].iter();
    words.count()
}
