// a cell is invariant
use std::cell::Cell;
pub fn shorten<'a, 'b: 'a>(cell: &'a Cell<&'b str>) -> &'a Cell<&'a str> {
    cell
}
