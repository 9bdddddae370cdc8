// a result that lives forever
pub fn forever<'a>(word: &'a str) -> impl Fn() -> usize + 'static {
    move || word.len()
}
