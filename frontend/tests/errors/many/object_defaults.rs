// the lifetime that an object has where none is written
use std::fmt::{Debug, Display};
pub fn boxed(text: &str) -> Box<dyn Display> {
    Box::new(text)
}
pub fn named<'a>(text: &'a str) -> Box<dyn Display + 'a> {
    Box::new(text)
}
pub fn behind<'a, 'b>(one: &'a Box<dyn Display + 'b>) -> &'a dyn Display {
    &**one
}
pub fn longer<'a, 'b>(one: &'a (dyn Display + 'b)) -> &'a (dyn Display + 'static) {
    one
}
pub fn mutable<'a, 'b>(one: &'a mut (dyn Display + 'b)) -> &'a mut (dyn Display + 'b) {
    one
}
pub fn invariant<'a, 'b>(one: &'a mut Box<dyn Debug + 'b>) -> &'a mut Box<dyn Debug + 'a> {
    one
}
pub struct Holder<'a> {
    shown: &'a dyn Debug,
}
pub fn held<'a>(text: &'a String) -> Holder<'static> {
    Holder { shown: text }
}
pub fn local() -> Holder<'static> {
    let text = String::new();
    Holder { shown: &text }
}
pub fn stored<'a>(list: &mut Vec<Box<dyn Debug>>, text: &'a str) {
    list.push(Box::new(text));
}
impl dyn Debugged {
    fn name(&self) -> usize {
        1
    }
}
pub trait Debugged {}
impl Debugged for &str {}
pub fn own(text: &str) -> usize {
    let one: &dyn Debugged = &text;
    one.name()
}
