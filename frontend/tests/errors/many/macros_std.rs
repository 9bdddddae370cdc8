// macros of the standard library around a borrow
pub fn printed(mut text: String) {
    let view = &text;
    println!(
        "{} {}",
        {
            text.push('a');
            1
        },
        view
    );
}
pub fn asserted(mut list: Vec<u32>) {
    let first = &list[0];
    list.push(1);
    assert_eq!(*first, list[1]);
}
pub fn matched(mut list: Vec<u32>) -> bool {
    let first = list.first();
    list.clear();
    matches!(first, Some(1))
}
pub fn formatted() -> &'static str {
    &format!("{}", 1)
}
pub fn listed() -> usize {
    let list = vec![String::new().as_str()];
    list.len()
}
pub fn written(mut text: String) {
    use std::fmt::Write;
    let view = text.as_str();
    write!(text, "{}", view).unwrap();
}
pub fn debugged(text: String) -> usize {
    let view = &text;
    let own = dbg!(text);
    view.len() + own.len()
}
pub fn moved(text: String) -> String {
    println!("{}", text);
    let own = text;
    println!("{} {}", own, text);
    own
}
pub fn todo_of(flag: bool) -> u32 {
    let one: u32;
    if flag {
        one = 1
    } else {
        todo!()
    }
    one
}
