// names inside a format string are borrows
pub fn moved(text: String) -> String {
    let own = text;
    format!("{text}{own}")
}
pub fn borrowed(mut text: String) {
    let view = &mut text;
    println!("{text}");
    view.push('a');
}
pub fn width(mut list: Vec<usize>) {
    let first = &mut list[0];
    println!("{:1$}", 3, list[1]);
    *first = 1;
}
pub fn arguments(text: &mut String) {
    let made = format_args!("{}", text).to_string();
    text.push_str(&made);
}
pub fn kept() -> String {
    let args = format_args!("{}", String::from("a"));
    args.to_string()
}
pub fn panics(text: String) -> usize {
    let own = text;
    if own.is_empty() {
        panic!("{text}")
    }
    own.len()
}
pub fn asserts(list: Vec<u32>) {
    let own = list;
    assert!(own.len() > 1, "{list:?}");
}
pub fn writes(mut out: String, list: &[String]) {
    use std::fmt::Write;
    let last = &out[1..];
    for one in list {
        writeln!(out, "{one}").unwrap();
    }
    drop(last.len());
}
pub fn unassigned() {
    let text: String;
    println!("{text}");
}
