// a macro of the standard library takes the value
pub fn debugged(text: String) -> usize {
    dbg!(text);
    text.len()
}
pub fn twice(text: String) {
    dbg!(text);
    dbg!(text);
}
pub fn listed(text: String) -> usize {
    let list = vec![text];
    list.len() + text.len()
}
