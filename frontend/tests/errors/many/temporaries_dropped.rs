// a temporary of the last expression is dropped behind the variables
use std::cell::RefCell;
use std::sync::Mutex;
pub fn tail() -> usize {
    let cell = RefCell::new(vec![1]);
    cell.borrow().len()
}
pub fn in_match() -> usize {
    let lock = Mutex::new(vec![1]);
    match lock.lock().unwrap().first() {
        Some(one) => *one,
        None => 0,
    }
}
pub fn kept() -> usize {
    let lock = Mutex::new(String::new());
    let text = lock.lock().unwrap().as_str();
    text.len()
}
pub fn scrutinee(mut list: Vec<Option<String>>) -> usize {
    match list.iter().next() {
        Some(Some(text)) => {
            list.clear();
            text.len()
        }
        _ => 0,
    }
}
pub fn if_let(cell: &RefCell<Vec<String>>) -> usize {
    if let Some(text) = cell.borrow().first() {
        text.len()
    } else {
        0
    }
}
pub fn ended(list: &mut Vec<String>) -> usize {
    let text = std::mem::take(list).iter().next().unwrap();
    text.len()
}
pub fn extended() -> usize {
    let pair = (&String::new(), 1);
    let list = [&String::new()];
    let some = Some(&String::new());
    pair.0.len() + list[0].len() + some.map_or(0, |text| text.len())
}
