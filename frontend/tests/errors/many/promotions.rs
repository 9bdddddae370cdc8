// what is promoted to a static, and what isn't
use std::cell::Cell;
pub fn number() -> &'static u32 {
    &3
}
pub fn sum() -> &'static u32 {
    &(1 + 2)
}
pub fn list() -> &'static [u32] {
    &[1, 2, 3]
}
pub fn empty() -> &'static mut [u32] {
    &mut []
}
pub fn text() -> &'static String {
    &String::new()
}
pub fn cell() -> &'static Cell<u32> {
    &Cell::new(1)
}
pub fn division(by: u32) -> &'static u32 {
    &(6 / by)
}
pub fn mutable() -> &'static mut u32 {
    &mut 3
}
pub const fn made() -> u32 {
    3
}
pub fn called() -> &'static u32 {
    &made()
}
pub fn nothing() -> &'static Option<Cell<u32>> {
    &None
}
pub const NONE: Option<Cell<u32>> = None;
pub fn of_constant() -> &'static Option<Cell<u32>> {
    &NONE
}
pub struct Loud(u32);
impl Drop for Loud {
    fn drop(&mut self) {}
}
pub const LOUD: Loud = Loud(1);
pub fn loud() -> &'static Loud {
    &LOUD
}
pub fn inner(at: usize) -> &'static u32 {
    &[1, 2, 3][at]
}
pub fn held() -> usize {
    let list: &'static [String] = &[String::new()];
    list.len()
}
