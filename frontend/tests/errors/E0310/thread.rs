// what a thread has must live forever
use std::thread;
pub fn start<T: Send + FnOnce()>(work: T) {
    thread::spawn(work);
}
