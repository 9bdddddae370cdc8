// a boxed object with a name
pub fn boxed<'a>(word: &str, _: &'a str) -> Box<dyn Fn() -> usize + 'a> {
    Box::new(move || word.len())
}
