// a guard is gone at the end of its block; it borrows the cell as mutable
use std::cell::RefCell;
pub fn set(mut cell: RefCell<String>) -> RefCell<String> {
    let inner = cell.get_mut();
    let other = cell.get_mut();
    inner.push_str(other);
    cell
}
