// who looks at a borrow when it is dropped
use std::cell::{Cell, RefCell};
pub struct Loud<'a>(&'a mut String);
impl Drop for Loud<'_> {
    fn drop(&mut self) {
        self.0.clear();
    }
}
pub struct Quiet<'a>(&'a mut String);
pub fn loud() -> usize {
    let mut text = String::new();
    let _loud = Loud(&mut text);
    text.len()
}
pub fn quiet() -> usize {
    let mut text = String::new();
    let _quiet = Quiet(&mut text);
    text.len()
}
pub fn order() {
    let _loud;
    let mut text = String::new();
    _loud = Loud(&mut text);
}
pub fn boxed() {
    let mut list: Vec<Box<dyn Fn() -> usize + '_>> = Vec::new();
    let text = String::new();
    list.push(Box::new(|| text.len()));
}
pub fn knot() {
    let cell: RefCell<Vec<&RefCell<u32>>> = RefCell::new(vec![]);
    let one = RefCell::new(1);
    cell.borrow_mut().push(&one);
}
pub fn tuple() {
    let pair: (Loud<'_>, String);
    let mut text = String::new();
    pair = (Loud(&mut text), String::new());
    let _ = &pair.1;
}
pub fn field<'a>(loud: Loud<'a>) -> &'a mut String {
    loud.0
}
pub fn reborrowed<'a>(loud: Loud<'a>) -> &'a mut String {
    &mut *loud.0
}
pub fn replaced() {
    let mut text = String::new();
    let mut other = String::new();
    let mut loud = Loud(&mut text);
    loud = Loud(&mut other);
    text.push('a');
    drop(loud);
    other.push('a');
}
pub struct Turn<'a>(Cell<Option<&'a Turn<'a>>>);
pub fn circle() {
    let one = Turn(Cell::new(None));
    one.0.set(Some(&one));
}
pub struct LoudTurn<'a>(Cell<Option<&'a LoudTurn<'a>>>);
impl Drop for LoudTurn<'_> {
    fn drop(&mut self) {}
}
pub fn loud_circle() {
    let one = LoudTurn(Cell::new(None));
    one.0.set(Some(&one));
}
