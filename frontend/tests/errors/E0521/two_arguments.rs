// a closure's argument goes into a list of the function around it
use std::cell::RefCell;
pub fn gather<'a>(kept: &RefCell<Vec<&'a str>>) -> impl Fn(&str) {
    let list = kept.borrow().clone();
    let cell = RefCell::new(list);
    move |word: &str| cell.borrow_mut().push(word)
}
