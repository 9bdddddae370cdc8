//! Each function has one mistake at least: a named lifetime that would have to outlive another.
use std::cell::RefCell;
fn show<T>(_: T) {}
pub fn longer<'a, 'b>(first: &'a str, second: &'b str) -> &'a str {
    let mut best = first;
    if second.len() > best.len() {
        best = second;
    }
    best
}
pub fn plain<'a, 'b>(first: &'a str, second: &'b str) -> &'a str {
    second
}
pub fn stat<'a>(x: &'a u8) -> &'static u8 { x }
pub fn pushes<'a, 'b>(v: &mut Vec<&'a u8>, x: &'b u8) {
    v.push(x);
}
pub fn needs(x: &u8) {
    fn forever(_: &'static u8) {}
    forever(x);
}
pub fn assigned<'a, 'b>(place: &mut &'a u8, x: &'b u8) {
    *place = x;
}
pub struct S<'s> { a: &'s str }
impl<'s> S<'s> {
    pub fn set(&mut self, text: &str) {
        self.a = text;
    }
    pub fn get<'x>(&'x self, other: &'x str) -> &'s str {
        if other.is_empty() { other } else { self.a }
    }
}
pub fn boxed(x: &u8) -> Box<dyn Fn() -> u8 + '_> {
    Box::new(move || *x)
}
pub fn boxed_static(x: &u8) -> Box<dyn Fn() -> u8> {
    Box::new(move || *x)
}
pub fn annotated<'a>(x: &'a u8) {
    let y: &'static u8 = x;
    show(y);
}
pub fn cell<'a, 'b>(c: &RefCell<&'a u8>, x: &'b u8) {
    *c.borrow_mut() = x;
}
pub fn closure_ret<'a, 'b>(x: &'a u8, y: &'b u8) -> impl Fn() -> &'a u8 {
    move || if *x > *y { x } else { y }
}
pub fn tuple<'a, 'b>(p: (&'a u8, &'b u8)) -> (&'b u8, &'a u8) {
    p
}
pub fn invariant<'a, 'b>(x: &'a mut &'b u8) -> &'a mut &'a u8 { x }
pub fn iter<'a>(v: &'a [u8]) -> impl Iterator<Item = &'static u8> + 'a { v.iter() }
pub fn opt<'a, 'b>(x: Option<&'a u8>, y: &'b u8) -> &'a u8 {
    x.unwrap_or(y)
}
pub async fn asy<'a, 'b>(x: &'a u8, y: &'b u8) -> &'a u8 {
    if *x > 3 { x } else { y }
}
pub fn captured<'a>(v: &mut Vec<&'a u8>, x: &u8) {
    let mut add = |y: &'a u8| v.push(y);
    add(x);
}
pub fn two(x: &u8, y: &u8) -> &'static u8 {
    if *x > *y { x } else { y }
}
pub fn escapes<'a>() -> impl FnMut() -> &'a u32 {
    let mut count = 0;
    move || {
        count += 1;
        &count
    }
}
