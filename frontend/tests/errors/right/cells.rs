// cells and shared pointers
use std::cell::{Cell, RefCell};
use std::rc::Rc;
pub fn cells(list: Rc<RefCell<Vec<u32>>>, count: &Cell<u32>) -> usize {
    let other = Rc::clone(&list);
    other.borrow_mut().push(count.get());
    count.set(count.get() + 1);
    let size = list.borrow().len();
    size
}
