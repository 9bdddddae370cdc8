//! Each function has one mistake at least: something is moved, assigned or used while it is borrowed.

fn show<T>(_: T) {}
fn eat<T>(_: T) {}

pub fn moved_while_read() {
    let text = String::from("a");
    let view = &text;
    eat(text);
    show(view);
}

pub fn moved_into_a_variable() {
    let list = vec![1];
    let first = &list[0];
    let other = list;
    show(first);
    show(other);
}

pub fn moved_by_drop() {
    let text = String::from("a");
    let view = text.as_str();
    drop(text);
    show(view);
}

pub fn moved_into_a_closure() {
    let text = String::from("a");
    let view = &text;
    let tell = move || text.len();
    show(view);
    show(tell());
}

pub fn moved_out_of_a_field() {
    struct Pair {
        one: String,
        other: String,
    }
    let pair = Pair { one: String::new(), other: String::new() };
    let whole = &pair;
    eat(pair.one);
    show(&whole.other);
}

pub fn moved_in_a_match(slot: Option<String>) {
    let view = &slot;
    match slot {
        Some(text) => eat(text),
        None => {}
    }
    show(view);
}

pub fn moved_in_a_loop(lists: Vec<Vec<u32>>) {
    let mut longest: &[u32] = &[];
    for list in lists {
        if list.len() > longest.len() {
            longest = &list;
        }
        eat(list);
    }
    show(longest);
}

pub fn returned_while_borrowed() -> String {
    let text = String::from("a");
    let view = Keep(&text);
    let result = text;
    show(view.0);
    result
}

pub struct Keep<'k>(&'k String);

pub fn boxed() {
    let number = Box::new(1);
    let view = &*number;
    eat(number);
    show(view);
}

pub fn assigned() {
    let mut number = 1;
    let view = &number;
    number = 2;
    show(view);
}

pub fn added_to(mut number: u32) {
    let view = &number;
    number += 1;
    show(view);
}

pub fn added_to_while_written(mut number: u32) {
    let place = &mut number;
    number += 1;
    *place = 3;
}

pub fn assigned_through_a_reference(number: &mut u32) {
    let view = &*number;
    *number = 3;
    show(view);
}

pub fn assigned_field(mut pair: (u32, u32)) {
    let one = &pair.0;
    pair.0 = 3;
    pair.1 = 4;
    show(one);
}

pub fn assigned_whole(mut pair: (u32, u32)) {
    let one = &mut pair.0;
    pair = (3, 4);
    *one = 5;
}

pub fn assigned_in_a_loop(words: &[String]) {
    let mut line = String::new();
    let mut kept = Vec::new();
    for word in words {
        line = word.clone();
        kept.push(&line);
    }
    show(kept);
}

pub fn assigned_in_a_match(mut slot: Option<u32>) {
    match slot {
        Some(ref number) => {
            slot = None;
            show(number);
        }
        None => {}
    }
}

pub fn assigned_under_a_closure() {
    let mut count = 1;
    let tell = || count + 1;
    count = 2;
    show(tell());
}

pub fn assigned_element(mut list: [u32; 3]) {
    let one = &list[0];
    list[1] = 3;
    show(one);
}

pub fn used_while_written() {
    let mut number = 1;
    let place = &mut number;
    let copy = number;
    *place = 2;
    show(copy);
}

pub fn compared_while_written(mut number: u32) {
    let place = &mut number;
    if number > 3 {
        *place = 3;
    }
}

pub fn next_in_a_list() {
    struct Node {
        next: Option<Box<Node>>,
        number: u32,
    }
    let mut head = Node { next: None, number: 1 };
    let tail = &head.next;
    head.next = Some(Box::new(Node { next: None, number: 2 }));
    show(tail.is_some());
    show(head.number);
}

pub fn matched_while_written(mut slot: Option<u32>) {
    let place = &mut slot;
    match slot {
        Some(_) => {}
        None => {}
    }
    *place = None;
}

pub fn swapped(mut one: String, mut other: String) {
    let view = &one;
    std::mem::swap(&mut one, &mut other);
    show(view);
}

pub fn guard_writes(mut slot: Option<u32>) {
    match slot {
        None => {}
        Some(_) if { slot = None; false } => {}
        Some(_) => {}
    }
}
