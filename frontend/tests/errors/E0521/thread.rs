// a borrow of the caller's goes into a thread
use std::thread;
pub fn start(list: &Vec<u32>) {
    thread::spawn(move || list.len());
}
