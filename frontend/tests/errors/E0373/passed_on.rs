// an argument of a call that wants what lives forever
fn later(_: impl Fn() -> usize + 'static) {}
pub fn pass(word: String) {
    later(|| word.len());
}
