// temporaries live to the end of the statement, or longer where a `let` keeps them
use std::sync::Mutex;
pub fn temporaries(list: &Mutex<Vec<String>>) -> usize {
    let kept = &String::from("kept");
    list.lock().unwrap().push(kept.clone());
    let size = list.lock().unwrap().iter().map(|word| word.len()).sum::<usize>();
    size + kept.len()
}
