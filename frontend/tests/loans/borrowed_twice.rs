//! Each function has one mistake at least: a borrow while another one is in force.

use std::collections::HashMap;

fn show<T>(_: T) {}

pub fn two_writers() {
    let mut list = vec![1, 2];
    let one = &mut list;
    let other = &mut list;
    one.push(3);
    other.push(4);
}

pub fn writer_beside_reader() {
    let mut list = vec![1, 2];
    let first = &list[0];
    list.push(3);
    show(first);
}

pub fn reader_beside_writer() {
    let mut text = String::new();
    let writer = &mut text;
    show(text.len());
    writer.push('a');
}

pub fn in_a_loop(list: &mut Vec<u32>) {
    for number in list.iter() {
        if *number > 3 {
            list.push(*number);
        }
    }
}

pub fn kept_from_turn_to_turn() {
    let mut word = String::from("a");
    let mut kept: Vec<&mut String> = Vec::new();
    for _ in 0..3 {
        kept.push(&mut word);
    }
    show(kept.len());
}

pub fn kept_in_while(mut left: u8) {
    let mut word = String::from("a");
    let mut last: Option<&String> = None;
    while left > 0 {
        word.push('b');
        last = Some(&word);
        left -= 1;
    }
    show(last);
}

pub fn two_phases(list: &mut Vec<usize>) {
    let first = &mut list[0];
    list.push(1);
    *first = 2;
}

pub fn argument_of_its_own(list: &mut Vec<Vec<usize>>) {
    list[0].push(list[1].len());
    show(list);
}

pub fn explicit_borrow_has_one_phase(list: &mut Vec<usize>) {
    Vec::push(list, list.len());
    let both = (&mut *list, list.len());
    show(both);
}

pub fn through_a_struct() {
    struct Pair {
        one: u32,
        other: u32,
    }
    let mut pair = Pair { one: 1, other: 2 };
    let one = &mut pair.one;
    let other = &mut pair.other;
    let whole = &pair;
    *one = 3;
    *other = 4;
    show(whole.one);
}

pub fn get_twice(map: &mut HashMap<u32, String>) {
    let one = map.get_mut(&1);
    let other = map.get_mut(&2);
    show((one, other));
}

pub fn in_a_match(map: &mut HashMap<u32, String>) {
    match map.get(&1) {
        Some(text) => {
            map.insert(2, String::new());
            show(text);
        }
        None => {
            map.insert(1, String::new());
        }
    }
}

pub fn of_an_if_let(slot: &mut Option<String>) {
    if let Some(text) = slot {
        let again = &mut *slot;
        text.push('a');
        show(again);
    }
}

pub fn reborrow(number: &mut u32) {
    let inner = &mut *number;
    let second = &mut *number;
    *inner += 1;
    *second += 1;
}

pub fn reborrow_of_reborrow(number: &mut u32) {
    let inner = &mut *number;
    let deeper = &mut *inner;
    let reader = &*number;
    *deeper += 1;
    show(reader);
}

pub fn closure_that_writes() {
    let mut count = 0;
    let mut more = || count += 1;
    show(&count);
    more();
}

pub fn two_closures() {
    let mut count = 0;
    let mut more = || count += 1;
    let mut less = || count -= 1;
    more();
    less();
}

pub fn closure_that_reads() {
    let mut list = vec![1];
    let has = |number| list.contains(number);
    list.push(2);
    show(has(&2));
}

pub fn halves(list: &mut [u32]) {
    let (left, _) = list.split_at_mut(1);
    let (_, right) = list.split_at_mut(1);
    left[0] = right[0];
}

pub struct Stack {
    items: Vec<String>,
    size: usize,
}

impl Stack {
    fn top(&mut self) -> &mut String {
        &mut self.items[0]
    }

    pub fn grow(&mut self) {
        let top = self.top();
        self.size += self.count();
        top.push('a');
    }

    pub fn count(&self) -> usize {
        self.size
    }

    pub fn each(&mut self) {
        for item in &self.items {
            show(item);
            self.clear();
        }
    }

    fn clear(&mut self) {
        self.items.clear();
    }
}

pub fn iterator_is_kept(list: &mut Vec<u32>) -> u32 {
    let numbers = list.iter().map(|number| number + 1);
    list.clear();
    numbers.sum()
}

pub fn drop_at_the_end() {
    struct Guard<'g>(&'g mut u32);
    impl Drop for Guard<'_> {
        fn drop(&mut self) {
            *self.0 += 1;
        }
    }
    let mut number = 1;
    let guard = Guard(&mut number);
    show(&number);
}

pub fn longer_by_a_call<'a>(pool: &'a mut Vec<String>, keep: &mut Vec<&'a String>) {
    keep.push(&pool[0]);
    pool.push(String::new());
}

pub fn returned_on_one_way<'a>(map: &'a mut HashMap<u32, String>, other: &'a mut String) -> &'a String {
    let found = map.get_mut(&1);
    match found {
        Some(text) => {
            map.remove(&2);
            text
        }
        None => other,
    }
}
