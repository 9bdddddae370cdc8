// a call wants what lives forever
fn keep(_: &'static str) {}
pub fn give(word: &str) {
    keep(word);
}
