//! Right functions: closures that read, write, move, keep and hand out what they find outside.

use std::cell::{Cell, RefCell};
use std::collections::HashMap;

fn apply<T>(value: T, change: impl Fn(T) -> T) -> T {
    change(value)
}

pub fn reads(list: &[u32], least: u32) -> usize {
    let large = |number: &&u32| **number > least;
    list.iter().filter(large).count()
}

pub fn writes(list: &[u32]) -> u32 {
    let mut sum = 0;
    list.iter().for_each(|number| sum += number);
    sum
}

pub fn moves(text: String) -> impl Fn() -> usize {
    move || text.len()
}

pub fn keeps<'a>(list: &mut Vec<&'a str>, text: &'a str) {
    let mut keep = |part: &'a str| list.push(part);
    for part in text.split(' ') {
        keep(part);
    }
}

pub fn keeps_in_a_map<'a>(words: &[&'a str]) -> HashMap<&'a str, usize> {
    let mut counts = HashMap::new();
    words.iter().for_each(|word| *counts.entry(*word).or_insert(0) += 1);
    counts
}

pub fn hands_out<'a>(text: &'a str) -> impl Fn(usize) -> &'a str {
    move |at| &text[at..]
}

pub fn hands_out_a_field<'a>(pair: &'a (String, String)) -> Box<dyn Fn(bool) -> &'a str + 'a> {
    Box::new(move |first| if first { &pair.0 } else { &pair.1 })
}

pub fn longest<'a>(words: &[&'a str]) -> &'a str {
    words.iter().fold("", |best, word| if word.len() > best.len() { word } else { best })
}

pub fn sorted<'a>(mut words: Vec<&'a str>, order: &HashMap<&str, u32>) -> Vec<&'a str> {
    words.sort_by_key(|word| order.get(word).copied().unwrap_or(0));
    words
}

pub fn one_after_the_other() -> u32 {
    let mut count = 0;
    let mut more = || count += 1;
    more();
    more();
    let mut less = || count -= 1;
    less();
    count
}

pub fn beside_each_other(list: &mut Vec<u32>, log: &mut Vec<String>) {
    let mut add = |number| list.push(number);
    let mut note = |text: &str| log.push(text.to_string());
    add(1);
    note("one");
    add(2);
}

pub fn parts(pair: &mut (Vec<u32>, Vec<u32>)) {
    let mut left = || pair.0.push(1);
    let mut right = || pair.1.push(2);
    left();
    right();
    left();
}

pub fn nested(table: &[Vec<u32>], least: u32) -> Vec<u32> {
    table.iter().flat_map(|row| row.iter().filter(|n| **n > least).copied()).collect()
}

pub fn twice(number: u32) -> u32 {
    apply(apply(number, |n| n + 1), |n| n * 2)
}

pub fn given<F>(mut act: F)
where
    F: FnMut(&str),
{
    let text = String::from("a");
    act(&text);
    act("b");
}

pub fn gives(list: &mut Vec<String>) {
    given(|text| list.push(text.to_string()));
}

pub fn shared() -> u32 {
    let count = Cell::new(0);
    let more = || count.set(count.get() + 1);
    let less = || count.set(count.get() - 1);
    more();
    less();
    more();
    count.get()
}

pub fn in_a_cell() -> usize {
    let list = RefCell::new(Vec::new());
    let add = |number: u32| list.borrow_mut().push(number);
    add(1);
    add(2);
    let size = list.borrow().len();
    size
}

pub fn found<'a>(list: &'a [String], wanted: &str) -> Option<&'a String> {
    list.iter().find(|text| text.as_str() == wanted)
}

pub fn found_or<'a>(list: &'a [String], wanted: &str, other: &'a String) -> &'a String {
    list.iter().find(|text| *text == wanted).unwrap_or_else(|| other)
}

pub fn mapped<'a, 'b>(one: Option<&'a str>, other: &'b str) -> Option<(&'a str, &'b str)> {
    one.map(|text| (text, other))
}

pub fn inserted<'m>(map: &'m mut HashMap<String, Vec<u32>>, key: &str) -> &'m mut Vec<u32> {
    map.entry(key.to_string()).or_insert_with(|| vec![key.len() as u32])
}

pub fn boxed<'a>(actions: &mut Vec<Box<dyn FnMut() + 'a>>, count: &'a Cell<u32>) {
    actions.push(Box::new(move || count.set(count.get() + 1)));
}

pub fn held<'a>(text: &'a str) -> Lazy<'a, impl Fn() -> usize + 'a> {
    Lazy { text, make: move || text.len() }
}

pub struct Lazy<'a, F: Fn() -> usize> {
    text: &'a str,
    make: F,
}

impl<'a, F: Fn() -> usize> Lazy<'a, F> {
    pub fn get(&self) -> (&'a str, usize) {
        (self.text, (self.make)())
    }
}

pub fn retained(list: &mut Vec<String>, banned: &[String]) {
    list.retain(|text| !banned.iter().any(|one| one == text));
}

pub fn drained(list: &mut Vec<String>) -> Vec<String> {
    let mut kept = Vec::new();
    list.drain(..).filter(|text| !text.is_empty()).for_each(|text| kept.push(text));
    list.push(String::new());
    kept
}

pub fn recursive(list: &[u32], act: &mut dyn FnMut(u32)) {
    if let Some((first, rest)) = list.split_first() {
        act(*first);
        recursive(rest, act);
    }
}

pub fn called_recursively(list: &[u32]) -> u32 {
    let mut sum = 0;
    recursive(list, &mut |number| sum += number);
    sum
}

pub fn returned_function<'a>(names: &'a [String]) -> impl FnMut() -> Option<&'a str> {
    let mut rest = names.iter();
    move || rest.next().map(|name| name.as_str())
}

pub fn composed<A, B, C>(one: impl Fn(A) -> B, other: impl Fn(B) -> C) -> impl Fn(A) -> C {
    move |value| other(one(value))
}

pub fn swapped(pair: &mut (String, String)) -> &str {
    let mut swap = || std::mem::swap(&mut pair.0, &mut pair.1);
    swap();
    swap();
    &pair.0
}
