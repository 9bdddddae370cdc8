//! The problem cases of RFC 2094, which made Rust's borrow checker what it is.

use std::collections::HashMap;

fn capitalize(letters: &mut [char]) {
    letters[0] = letters[0].to_ascii_uppercase();
}

/// Problem case 1: a borrow is kept in a variable, and ends with the variable's last use, so the vector can grow.
pub fn kept_in_a_variable(mut letters: Vec<char>) -> Vec<char> {
    let slice = &mut letters[..];
    capitalize(slice);
    letters.push('d');
    letters
}

/// The same with one more use at the end: now the vector grows while the borrow is still needed.
pub fn kept_and_used_later(mut letters: Vec<char>) -> Vec<char> {
    let slice = &mut letters[..];
    letters.push('d');
    capitalize(slice);
    letters
}

/// Problem case 2: the borrow is needed in one arm of the `match` alone, so the other arm may insert.
pub fn one_arm_inserts(map: &mut HashMap<u32, String>, key: u32) {
    match map.get_mut(&key) {
        Some(value) => value.push('!'),
        None => {
            map.insert(key, String::new());
        }
    }
}

/// Problem case 3: what is found is returned, and what isn't is inserted. The borrow leaves the function on one path
/// only; rustc takes it to be live on the other, too.
pub fn found_or_inserted<'r>(map: &'r mut HashMap<u32, String>, key: u32) -> &'r mut String {
    match map.get_mut(&key) {
        Some(value) => value,
        None => {
            map.insert(key, String::new());
            map.get_mut(&key).unwrap()
        }
    }
}

/// A list as in problem case 4.
pub struct List {
    value: u32,
    next: Option<Box<List>>,
}

/// Problem case 4: a reference walks down a list, and each assignment to it ends the loan of the node before.
pub fn walk_down(mut list: &mut List) -> Vec<&mut u32> {
    let mut found = Vec::new();
    loop {
        found.push(&mut list.value);
        if let Some(next) = &mut list.next {
            list = next;
        } else {
            return found;
        }
    }
}

/// The RFC's first example of two references in one variable: the second assignment ends the loan of `first`.
pub fn overwritten(mut first: u32, second: u32, again: bool) -> u32 {
    let mut chosen = &first;
    let before = *chosen;
    if again {
        chosen = &second;
        first += 1;
    }
    before + *chosen
}
