// threads want what lives forever, scopes don't
use std::sync::{Arc, Mutex};
use std::thread;
pub fn borrowed() {
    let text = String::new();
    thread::spawn(|| println!("{text}"));
}
pub fn reference(text: &str) {
    thread::spawn(move || println!("{text}"));
}
pub fn moved() -> usize {
    let text = String::new();
    thread::spawn(move || text.len());
    text.len()
}
pub fn scoped(mut list: Vec<u32>) -> usize {
    thread::scope(|scope| {
        scope.spawn(|| list.push(1));
        scope.spawn(|| list.push(2));
    });
    list.len()
}
pub fn scoped_use(mut list: Vec<u32>) {
    thread::scope(|scope| {
        scope.spawn(|| list.push(1));
        list.push(2);
    });
}
pub fn inner(list: Vec<u32>) {
    thread::scope(|scope| {
        let own = list.len();
        scope.spawn(|| own + 1);
    });
}
pub fn guard(lock: Arc<Mutex<Vec<u32>>>) -> usize {
    let guard = lock.lock().unwrap();
    drop(lock);
    guard.len()
}
pub fn joined(list: Vec<u32>) -> usize {
    let view = &list;
    let handle = thread::spawn(move || view.len());
    handle.join().unwrap()
}
