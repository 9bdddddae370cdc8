//! Right functions: iterators of our own, made of closures, and loops over them.

use std::collections::{BTreeMap, VecDeque};
use std::iter::{from_fn, once, repeat_with, successors, Peekable};
use std::str::Chars;

pub struct Windows<'w, T> {
    list: &'w [T],
    size: usize,
}

impl<'w, T> Iterator for Windows<'w, T> {
    type Item = &'w [T];
    fn next(&mut self) -> Option<&'w [T]> {
        let window = self.list.get(..self.size)?;
        self.list = &self.list[1..];
        Some(window)
    }
}

pub struct Parts<'p> {
    rest: Option<&'p mut [u32]>,
}

impl<'p> Iterator for Parts<'p> {
    type Item = &'p mut u32;
    fn next(&mut self) -> Option<&'p mut u32> {
        let list = self.rest.take()?;
        let (first, rest) = list.split_first_mut()?;
        self.rest = Some(rest);
        Some(first)
    }
}

pub fn counting(end: u32) -> impl Iterator<Item = u32> {
    let mut number = 0;
    from_fn(move || {
        number += 1;
        (number < end).then_some(number)
    })
}

pub fn doubling() -> impl Iterator<Item = u64> {
    successors(Some(1u64), |number| number.checked_mul(2))
}

pub struct Node<'n> {
    parent: Option<&'n Node<'n>>,
    name: &'n str,
}

pub fn ancestors<'n>(node: &'n Node<'n>) -> impl Iterator<Item = &'n str> {
    successors(Some(node), |one| one.parent).map(|one| one.name)
}

pub fn words<'a>(text: &'a str) -> impl Iterator<Item = &'a str> + 'a {
    let mut rest = text;
    from_fn(move || {
        rest = rest.trim_start();
        if rest.is_empty() {
            return None;
        }
        let end = rest.find(' ').unwrap_or(rest.len());
        let (word, tail) = rest.split_at(end);
        rest = tail;
        Some(word)
    })
}

pub fn pairs<'a>(keys: &'a [String], values: &'a [u32]) -> Vec<(&'a str, u32)> {
    keys.iter().map(String::as_str).zip(values.iter().copied()).collect()
}

pub fn number(chars: &mut Peekable<Chars<'_>>) -> u32 {
    let mut sum = 0;
    while let Some(digit) = chars.peek().and_then(|sign| sign.to_digit(10)) {
        sum = sum * 10 + digit;
        chars.next();
    }
    sum
}

pub fn tokens(text: &str) -> Vec<u32> {
    let mut chars = text.chars().peekable();
    let mut found = Vec::new();
    while let Some(sign) = chars.peek() {
        if sign.is_ascii_digit() {
            found.push(number(&mut chars));
        } else {
            chars.next();
        }
    }
    found
}

pub fn grouped<'a>(words: impl Iterator<Item = &'a str>) -> BTreeMap<usize, Vec<&'a str>> {
    let mut groups: BTreeMap<usize, Vec<&str>> = BTreeMap::new();
    for word in words {
        groups.entry(word.len()).or_default().push(word);
    }
    groups
}

pub fn breadth<'t>(root: &'t Tree) -> impl Iterator<Item = u32> + 't {
    let mut queue = VecDeque::from([root]);
    from_fn(move || {
        let tree = queue.pop_front()?;
        queue.extend(tree.children.iter());
        Some(tree.number)
    })
}

pub struct Tree {
    number: u32,
    children: Vec<Tree>,
}

pub fn depth(tree: &Tree) -> usize {
    tree.children.iter().map(depth).max().map_or(1, |most| most + 1)
}

pub fn largest(tree: &Tree) -> &Tree {
    tree.children.iter().map(largest).fold(tree, |a, b| if b.number > a.number { b } else { a })
}

pub fn changed(tree: &mut Tree, change: &mut impl FnMut(&mut u32)) {
    change(&mut tree.number);
    for child in &mut tree.children {
        changed(child, change);
    }
}

pub fn deepest(tree: &mut Tree) -> &mut Tree {
    let mut here = tree;
    while !here.children.is_empty() {
        here = &mut here.children[0];
    }
    here
}

pub fn with_borders<'a>(list: &'a [u32], border: &'a u32) -> Vec<&'a u32> {
    once(border).chain(list).chain(once(border)).collect()
}

pub fn filled(size: usize) -> Vec<String> {
    let mut next = 'a';
    repeat_with(|| {
        let text = next.to_string();
        next = char::from(next as u8 + 1);
        text
    })
    .take(size)
    .collect()
}

pub fn added(list: &mut [u32], by: &[u32]) {
    for (place, more) in list.iter_mut().zip(by) {
        *place += more;
    }
}

pub fn rotated(list: &mut Vec<u32>) {
    for at in 1..list.len() {
        let before = list[at - 1];
        let place = &mut list[at];
        *place += before;
    }
    list.reverse();
}

pub fn scanned(list: &[u32]) -> Vec<u32> {
    list.iter()
        .scan(0, |sum, number| {
            *sum += number;
            Some(*sum)
        })
        .collect()
}

pub fn split<'a>(list: &'a [String], test: impl Fn(&str) -> bool) -> (Vec<&'a str>, Vec<&'a str>) {
    list.iter().map(|text| text.as_str()).partition(|text| test(text))
}

pub fn two_ends(text: &str) -> bool {
    let mut chars = text.chars();
    while let (Some(first), Some(last)) = (chars.next(), chars.next_back()) {
        if first != last {
            return false;
        }
    }
    true
}

pub fn linked(list: &mut Option<Box<Link>>, number: u32) {
    let mut end = list;
    while let Some(link) = end {
        end = &mut link.next;
    }
    *end = Some(Box::new(Link { number, next: None }));
}

pub struct Link {
    number: u32,
    next: Option<Box<Link>>,
}

impl Link {
    pub fn numbers(&self) -> impl Iterator<Item = u32> + '_ {
        successors(Some(self), |link| link.next.as_deref()).map(|link| link.number)
    }

    pub fn removed(mut self: Box<Self>, number: u32) -> Option<Box<Link>> {
        if self.number == number {
            return self.next;
        }
        self.next = self.next.and_then(|next| next.removed(number));
        Some(self)
    }
}
