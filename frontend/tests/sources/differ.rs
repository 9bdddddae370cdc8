//! Functions of which `nllc` and today's rustc say different things, or the same fault.

use std::collections::HashMap;

static ZERO: u8 = 0;

fn read(_: &u8) {}

/// rustc: `'a` must outlive `'static`. nllc: no fault, since `x` has left `p` before it goes out.
pub fn last<'a>(x: &'a u8) -> &'static u8 {
    let mut p = x;
    read(p); // holds: p
    p = &ZERO;
    p // holds: p
}

/// Both: `'a` must outlive `'static`.
pub fn as_static<'a>(x: &'a u8) -> &'static u8 {
    x
}

/// Both: `'b` must outlive `'a`.
pub fn longer<'a, 'b>(x: &'a u8, y: &'b u8) -> &'a u8 {
    let mut r = x;
    if *x < *y { // holds: r
        r = y;
    }
    r // holds: r
}

/// Both: the `x` in the vector is there for whoever catches the panic.
pub fn panics<'a>(x: &'a u8, v: &mut Vec<&'static u8>) {
    v.push(x);
    panic!()
}

/// rustc: `'a` must outlive `'static`. nllc: no fault: what `r` holds at the end is `&ZERO`, always.
pub fn at_last<'a>(x: &'a u8, n: u8) -> &'static u8 {
    let mut r = x;
    let mut left = n; // holds: r
    while left > 0 { // holds: r
        read(r); // holds: r
        left -= 1; // holds: r
    }
    r = &ZERO;
    r // holds: r
}

/// Problem case 3 of RFC 2094 as it is written there. rustc: `map` is still borrowed at `insert`.
/// nllc: it isn't, since the first borrow goes out on the other way alone.
pub fn get_default<'r>(map: &'r mut HashMap<u32, u32>, key: u32) -> &'r mut u32 {
    match map.get_mut(&key) {
        Some(value) => value, // holds: &mut (*map)
        None => {
            map.insert(key, 0);
            map.get_mut(&key).unwrap()
        }
    }
}
