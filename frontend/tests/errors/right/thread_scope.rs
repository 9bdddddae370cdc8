// threads in a scope borrow
use std::thread;
pub fn scoped(list: &mut Vec<u32>) -> usize {
    let mut count = 0;
    thread::scope(|scope| {
        scope.spawn(|| list.push(1));
        scope.spawn(|| count += 1);
    });
    list.len() + count
}
