// a constant of a type with bounds
pub struct Names<'a, 'b>(&'a str, &'b str);
impl<'a> Names<'a, 'a> {
    pub const MOST: usize = 3;
}
pub fn most<'a, 'b>(_: &'a str, _: &'b str) -> usize {
    Names::<'a, 'b>::MOST
}
