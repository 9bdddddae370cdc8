// a thread's closure
use std::thread;
pub fn start(list: Vec<u32>) -> usize {
    let work = thread::spawn(|| list.len());
    work.join().unwrap_or(0)
}
