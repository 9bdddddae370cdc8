//! The functions of RFC 2094, "Non-lexical lifetimes", as Rust that today's compiler takes.

use std::collections::HashMap;

fn print(_: u32) {}
fn process(_: &mut u32) {}
fn capitalize(_: &mut [char]) {}

/// The running example: `foo` may be written while `p` waits for a new value.
pub fn running(condition: bool) {
    let mut foo: u32 = 22;
    let mut bar: u32 = 44;
    let mut p: &u32;
    p = &foo;
    if condition { // holds: p, &foo
        print(*p); // holds: p, &foo
        foo += 1;
        p = &bar;
        foo += 1; // holds: p, &bar
    }
    print(*p); // holds: p, &foo, &bar
    bar += 1;
    print(foo + bar);
}

/// Problem case 1: a reference that is kept in a variable ends with its last use.
pub fn problem_case_1() {
    let mut data = vec!['a', 'b', 'c'];
    let slice = &mut data[..];
    capitalize(slice); // holds: slice, &mut data
    data.push('d');
    data.push('e');
}

/// Problem case 2: the borrow of `get_mut` isn't live in the arm without a value.
pub fn problem_case_2(map: &mut HashMap<u32, u32>, key: u32) {
    match map.get_mut(&key) {
        Some(value) => process(value), // holds: &mut (*map)
        None => {
            map.insert(key, 0);
        }
    }
}

/// Problem case 3: a borrow that is returned on one way alone, in the form that today's compiler
/// takes (it asks first whether the key is there).
pub fn problem_case_3<'r>(map: &'r mut HashMap<u32, u32>, key: u32) -> &'r mut u32 {
    // of: &mut (*map), &(*map)
    if map.contains_key(&key) {
        return map.get_mut(&key).unwrap();
    }
    map.insert(key, 0);
    map.get_mut(&key).unwrap()
}

pub struct List<T> {
    value: T,
    next: Option<Box<List<T>>>,
}

/// Problem case 4: `list` gets a new value while what was borrowed through the old one lives on.
pub fn problem_case_4<T>(mut list: &mut List<T>) -> Vec<&mut T> {
    let mut result = vec![];
    loop { // holds: result
        result.push(&mut list.value); // holds: result, n, &mut ((*list).0: T)
        if let Some(n) = list.next.as_mut() { // holds: result, n, &mut ((*list).0: T)
            list = n; // holds: result, n, &mut ((*list).0: T)
        } else {
            return result; // holds: result, n, &mut ((*list).0: T)
        }
    }
}

pub struct Wrap<'w> {
    value: &'w u32,
}

impl<'w> Drop for Wrap<'w> {
    fn drop(&mut self) {
        print(*self.value);
    }
}

/// Drop-liveness: a `Wrap` looks at its reference when it is dropped.
pub fn dropped() {
    let foo: u32 = 22;
    let w = Wrap { value: &foo };
    print(1); // holds: w, &foo
}

/// Drop-liveness: a `Vec` doesn't look at its references when it is dropped.
pub fn dropped_vec() {
    // of: v, &foo
    let foo: u32 = 22;
    let v = vec![&foo];
    print(1);
}

/// Reborrowing: through `&mut`, the outer reference must outlive the new one.
pub fn reborrow_mut<'a, 'b>(p: &'a mut &'b mut u32) -> &'a u32 {
    let r: &u32 = &**p;
    print(*r); // holds: r, &(*(*p))
    r // holds: r, &(*(*p))
}

/// Reborrowing: behind a shared reference the walk stops, so `'a` need not outlive the result.
pub fn reborrow_shared<'a, 'b>(p: &'a &'b u32) -> &'b u32 {
    let r: &u32 = &**p;
    print(*r); // holds: r, &(*(*p))
    r // holds: r, &(*(*p))
}

/// Named lifetimes: `'a: 'b` is declared, so an `'a` may go out as a `'b`.
pub fn known<'a: 'b, 'b>(x: &'a u32, _: &'b u32) -> &'b u32 {
    let r = x;
    r // holds: r
}
