// an arm that never returns drops what holds the loan, which isn't the use that is named
pub struct Held<'a>(pub &'a mut Vec<u32>);
impl Drop for Held<'_> {
    fn drop(&mut self) {}
}
fn never() -> ! {
    panic!()
}
pub fn use_later(list: &mut Vec<u32>) -> usize {
    let held = Held(&mut *list);
    let size = match list.first() {
        Some(first) => *first as usize,
        None => never(),
    };
    let count = held.0.len();
    size + count
}
pub fn at_the_end(list: &mut Vec<u32>) -> usize {
    let _held = Held(&mut *list);
    match list.first() {
        Some(first) => *first as usize,
        None => never(),
    }
}
