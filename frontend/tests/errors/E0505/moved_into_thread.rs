// a thread takes it
use std::thread;
pub fn start(text: String) -> usize {
    let word = text.as_str();
    let work = thread::spawn(move || text.len());
    let size = word.len();
    size + work.join().unwrap_or(0)
}
