// the later use stands in a macro of the same file
macro_rules! with_first {
    ($list:expr, $name:ident, $body:block) => {{
        let $name = &mut $list[0];
        $body;
        $name.clear();
    }};
}
macro_rules! clear {
    ($list:expr) => {
        $list.clear()
    };
}
macro_rules! all {
    ($list:expr) => {
        clear!($list)
    };
}
pub fn body(mut list: Vec<String>) {
    with_first!(list, first, { list.push(String::new()) });
}
pub fn in_two(mut list: Vec<String>) -> usize {
    let first = &mut list[0];
    all!(list);
    first.len()
}
