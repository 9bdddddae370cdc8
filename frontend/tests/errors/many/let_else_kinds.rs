// what `let .. else` binds and leaves
pub fn borrowed(list: &mut Vec<String>) -> usize {
    let Some(first) = list.first() else {
        list.clear();
        return 0;
    };
    list.push(String::new());
    first.len()
}
pub fn temporary() -> usize {
    let Some(text) = vec![String::new()].first() else {
        return 0;
    };
    text.len()
}
pub fn moved(found: Option<String>) -> usize {
    let Some(text) = found else {
        return found.map_or(0, |text| text.len());
    };
    text.len() + found.map_or(0, |text| text.len())
}
pub fn unassigned(flag: bool) -> u32 {
    let one;
    let true = flag else {
        one = 1;
        return one;
    };
    one
}
