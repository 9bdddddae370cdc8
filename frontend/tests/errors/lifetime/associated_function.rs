// a function of a type with bounds
pub struct Both<'a, 'b>(&'a str, &'b str);
impl<'a> Both<'a, 'a> {
    fn count() -> usize {
        2
    }
}
pub fn make<'a, 'b>(_: &'a str, _: &'b str) -> usize {
    Both::<'a, 'b>::count()
}
