// edition: 2024
// the temporary of `if let` is gone before the `else`
use std::cell::RefCell;
pub fn insert(cell: &RefCell<Vec<u32>>) -> usize {
    if let Some(first) = cell.borrow().first() {
        *first as usize
    } else {
        cell.borrow_mut().push(1);
        1
    }
}
pub fn tail() -> usize {
    let cell = RefCell::new(String::new());
    cell.borrow().len()
}
