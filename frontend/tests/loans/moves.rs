//! Errors of moves and assignments. A remark `before` is on the line by which the error below it comes about.

pub struct Pair {
    first: String,
    second: String,
}

pub fn moved(text: String) -> usize {
    drop(text); // before
    text.len()
}

pub fn part_moved(pair: Pair) -> Pair {
    drop(pair.first); // before
    pair
}

pub fn on_one_way(text: String, done: bool) -> String {
    if done {
        drop(text); // before
    }
    text
}

pub fn by_a_closure(text: String) -> usize {
    let take = move || text.len(); // before
    take() + text.len()
}

pub fn into_a_closure(text: String) -> usize {
    drop(text); // before
    let take = || text.len();
    take()
}

pub fn in_turns(texts: String) {
    for _ in 0..2 {
        drop(texts); // before
    }
}

pub fn by_a_loop(texts: Vec<String>) -> usize {
    for text in texts { // before
        drop(text);
    }
    texts.len()
}

pub fn pattern(text: Option<String>) -> Option<String> {
    if let Some(inner) = text { // before
        drop(inner);
    }
    text
}

pub fn without_value(done: bool) -> u8 {
    let number;
    if done {
        number = 1;
    }
    number
}

pub fn never(number: u8) -> u8 {
    let other: u8;
    number + other
}

pub fn assigned_twice() -> u8 {
    let number = 1; // before
    number = 2;
    number
}

pub fn assigned_in_turns() {
    let number;
    loop {
        number = 1; // before
        drop(number);
    }
}

pub fn argument(number: u8) -> u8 {
    number = 2;
    number
}

pub fn right(mut text: String, pair: Pair, done: bool) -> String {
    drop(text);
    text = pair.first;
    let number;
    if done {
        number = 1;
    } else {
        number = 2;
    }
    drop((pair.second, number));
    text
}
