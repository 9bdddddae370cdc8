// a function pointer that takes any lifetime
fn apply(work: for<'x> fn(&'x str) -> &'x str, word: &str) -> usize {
    work(word).len()
}
pub fn ranks<'a>(same: fn(&'a str) -> &'a str) -> usize {
    apply(|word| word, "x") + same("y").len()
}
pub fn fixed<'a>(word: &'a str) -> fn(&'static str) -> &'a str {
    let _ = word;
    fn same(word: &'static str) -> &'static str {
        word
    }
    same
}
pub fn shorter<'a, 'b>(work: fn(&'a str)) -> fn(&'b str) {
    work
}
