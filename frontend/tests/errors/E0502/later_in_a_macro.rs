// the later use stands in a macro of the standard library
use std::fmt::Write;
pub fn asserted(mut list: Vec<u32>) {
    let first = &list[0];
    list.push(1);
    assert_eq!(*first, list[1]);
}
pub fn written(mut text: String) {
    let view = text.as_str();
    write!(text, "{}", view).unwrap();
}
pub fn debugged(mut list: Vec<u32>) {
    let first = &list[0];
    list.push(1);
    dbg!(first);
}
