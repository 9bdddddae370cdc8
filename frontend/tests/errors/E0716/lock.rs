// the guard of a lock
use std::sync::Mutex;
pub fn lock(list: &Mutex<Vec<u32>>) -> usize {
    let items = list.lock().unwrap().iter();
    items.count()
}
