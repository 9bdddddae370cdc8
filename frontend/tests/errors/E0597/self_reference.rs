// a struct that borrows itself
use std::cell::Cell;
pub struct Knot<'a> {
    other: Cell<Option<&'a Knot<'a>>>,
}
impl Drop for Knot<'_> {
    fn drop(&mut self) {}
}
pub fn knot() {
    let knot = Knot { other: Cell::new(None) };
    knot.other.set(Some(&knot));
}
