//! Two lifetimes, and one of them handed out as the other.

/// The longer one.
pub fn pick<'a, 'b>(first: &'a str, second: &'b str) -> &'a str {
    let mut best = first;
    if second.len() > best.len() {
        best = second;
    }
    best
}

pub fn next_one() {}
