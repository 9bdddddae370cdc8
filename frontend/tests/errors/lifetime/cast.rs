// a cast to an object
pub trait Show {
    fn show(&self) -> usize;
}
impl Show for &str {
    fn show(&self) -> usize {
        self.len()
    }
}
pub fn object<'a, 'b>(word: &'a &'b str) -> &'a (dyn Show + 'a) {
    word
}
pub fn boxed<'a>(word: &'a str) -> Box<dyn Show> {
    Box::new(word)
}
