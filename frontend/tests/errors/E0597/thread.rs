// a thread may outlive a local variable that it gets by reference
use std::thread;
pub fn thread() {
    let list = vec![1, 2];
    let view = &list;
    let work = thread::spawn(move || view.len());
    work.join().ok();
}
