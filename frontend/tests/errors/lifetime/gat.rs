// an associated type with a lifetime
pub trait Lend {
    type Item<'a>
    where
        Self: 'a;
    fn lend<'a>(&'a mut self) -> Self::Item<'a>;
}
pub struct Windows<'s> {
    cells: &'s mut [u8],
}
impl<'s> Lend for Windows<'s> {
    type Item<'a>
        = &'s mut [u8]
    where
        Self: 'a;
    fn lend<'a>(&'a mut self) -> Self::Item<'a> {
        &mut self.cells[..]
    }
}
