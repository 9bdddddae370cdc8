// a macro of the file makes the borrow
macro_rules! first {
    ($list:expr) => {
        &mut $list[0]
    };
}
pub fn twice(list: &mut Vec<String>) {
    let one = first!(list);
    let two = first!(list);
    std::mem::swap(one, two);
}
