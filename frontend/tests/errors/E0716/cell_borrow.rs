// what a cell lends
use std::cell::RefCell;
pub fn cell(cell: &RefCell<Option<String>>) -> usize {
    let word = cell.borrow().as_ref();
    word.map_or(0, |word| word.len())
}
