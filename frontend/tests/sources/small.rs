//! Small functions whose regions a person can tell by reading them.

fn read(_: &u8) {}

/// Nothing is borrowed.
pub fn none(x: u8) -> u8 {
    x + 1
}

/// The result is the argument.
pub fn same<'a>(x: &'a u8) -> &'a u8 {
    x
}

/// A lifetime without a name.
pub fn elided(x: &u8) -> &u8 {
    let y = x;
    y // holds: y
}

/// A borrow that ends before the variable is written.
pub fn ends() -> u8 {
    let mut x = 1;
    let r = &x;
    read(r); // holds: r, &x
    x += 1;
    x
}

/// Two borrows, one after the other, in one variable.
pub fn twice(a: u8, b: u8) {
    let mut r = &a;
    read(r); // holds: r, &a
    r = &b;
    read(r); // holds: r, &b
}

/// A loop: the borrow of one turn isn't needed in the next.
pub fn turns(mut x: u8) -> u8 {
    while x < 9 {
        let r = &x;
        read(r); // holds: r, &x
        x += 1;
    }
    x
}

/// A loop that carries a borrow from turn to turn.
pub fn carried(x: u8, y: u8) {
    let mut r = &x;
    while *r < 9 { // holds: r, &x, &y
        read(r); // holds: r, &x, &y
        r = &y;
    }
}

/// What an `&mut` leads to is invariant.
pub fn stored<'a, 'b>(place: &'a mut &'b u8, x: &'b u8) {
    *place = x;
}

pub struct Pair<'p, 'q> {
    one: &'p u8,
    other: &'q u8,
}

/// Of a struct with two regions only one goes out.
pub fn part<'p, 'q>(pair: Pair<'p, 'q>) -> &'p u8 {
    read(pair.other);
    pair.one
}

/// A method of a trait, found by the type's name.
impl<'p, 'q> Iterator for Pair<'p, 'q> {
    type Item = &'p u8;
    fn next(&mut self) -> Option<&'p u8> {
        Some(self.one)
    }
}

/// A closure that borrows what it finds outside.
pub fn closed(x: u8) -> bool {
    let has = |y: &u8| *y == x;
    has(&3) // holds: has, &x
}

/// A value that is moved away: its drop at the end does nothing.
pub fn moved(x: u8) {
    let r = Box::new(&x);
    let s = r; // holds: r, &x
    read(*s); // holds: r, s, &x
}

/// Generic over a type and a lifetime that it outlives.
pub fn generic<'a, T: 'a>(x: &'a [T], n: usize) -> Option<&'a T> {
    let first = x.get(n);
    first // holds: first
}
