// edition: 2024
// edition 2024 drops temporaries of the last expression first
use std::cell::RefCell;
pub fn tail() -> usize {
    let cell = RefCell::new(vec![1]);
    cell.borrow().len()
}
pub fn value() -> usize {
    let text = { &String::from("abc") };
    text.len()
}
pub fn block() -> usize {
    let size = { String::from("abc").as_str() }.len();
    let text = { String::from("abc").as_str() };
    size + text.len()
}
pub fn if_let(cell: &RefCell<Option<String>>) -> usize {
    if let Some(text) = cell.borrow().as_ref() {
        text.len()
    } else {
        cell.borrow_mut().take();
        0
    }
}
pub fn chain(list: &mut Vec<String>) -> usize {
    if let Some(first) = list.first()
        && let Some(last) = list.last()
        && first != last
    {
        list.clear();
        first.len()
    } else {
        list.clear();
        0
    }
}
pub fn chain_of_mutable(list: &mut Vec<String>) -> usize {
    if let Some(first) = list.first_mut()
        && let Some(last) = list.last_mut()
    {
        first.push_str(last);
    }
    list.len()
}
