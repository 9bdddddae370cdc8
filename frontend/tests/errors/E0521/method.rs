// a method whose trait wants what lives forever
pub trait Keep {
    fn keep(&self, word: &'static str);
}
pub fn method(keeper: &impl Keep, word: &str) {
    keeper.keep(word);
}
