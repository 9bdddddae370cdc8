// edition: 2024
use std::cell::RefCell;
pub fn both_ends(mut v: Vec<u32>) -> u32 {
    if let Some(x) = v.first_mut()
        && let Some(y) = v.last_mut()
    {
        *x += *y;
        *x
    } else {
        0
    }
}
pub fn cleared_in_a_chain(mut v: Vec<u32>) -> u32 {
    if let Some(x) = v.first()
        && *x > 1
        && {
            v.clear();
            true
        }
    {
        *x
    } else {
        v.push(1);
        0
    }
}
pub fn moved_in_a_chain(o: Option<String>) -> usize {
    if let Some(s) = o
        && s.len() > 1
    {
        s.len()
    } else {
        o.unwrap().len()
    }
}
pub fn out_of_a_cell(r: &RefCell<Vec<String>>) -> &str {
    if let Some(s) = r.borrow().first()
        && !s.is_empty()
    {
        s
    } else {
        ""
    }
}
pub fn of_two(
    a: &Option<String>,
    b: &Option<String>,
) -> &'static str {
    if let Some(x) = a
        && let Some(_) = b
    {
        x
    } else {
        ""
    }
}
pub fn emptied_in_a_loop(mut o: Option<Option<u32>>) -> u32 {
    while let Some(ref mut i) = o
        && let Some(n) = i
    {
        *n -= 1;
        o = None;
        *n += 1;
    }
    0
}
pub fn returned_or_emptied(x: &mut Option<String>) -> Option<&mut String> {
    if let Some(y) = x
        && y.len() > 1
    {
        return Some(y);
    }
    *x = None;
    x.as_mut()
}
