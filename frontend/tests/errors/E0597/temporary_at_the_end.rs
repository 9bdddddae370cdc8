// the value of the block is a temporary that is dropped after the variables
use std::cell::RefCell;
pub fn tail() -> usize {
    let cell = RefCell::new(String::new());
    cell.borrow().len()
}
pub fn held() -> bool {
    let list = RefCell::new(vec![1]);
    list.borrow().iter().any(|item| *item == 1)
}
