//! A variable is given a new value before it is returned. rustc 1.95 refuses `last`, since its constraints hold
//! at all points; from their points on there is no fault (docs/LEARNING.md).

static ZERO: u8 = 0;

pub fn last<'a>(x: &'a u8) -> &'static u8 {
    let mut p = x;
    read(p);
    p = &ZERO;
    p
}

fn read(_: &u8) {}
