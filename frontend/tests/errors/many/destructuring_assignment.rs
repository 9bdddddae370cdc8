// assignments by patterns
pub fn swap(mut one: String, mut other: String) -> usize {
    (one, other) = (other, one);
    one.len() + other.len()
}
pub fn slots(list: &mut [u32; 2]) {
    let first = &list[0];
    [list[1], _] = [1, 2];
    let _ = *first;
    [list[0], list[1]] = [1, 2];
}
pub fn borrowed(mut one: u32, mut other: u32) -> u32 {
    let view = &one;
    (one, other) = (1, 2);
    *view + other
}
pub fn structure() -> String {
    struct Pair {
        one: String,
        other: u32,
    }
    let one;
    let other;
    Pair { one, other } = Pair {
        one: String::new(),
        other: 1,
    };
    let _ = other;
    one
}
pub fn twice() -> u32 {
    let one;
    (one, _) = (1, 2);
    [one, ..] = [1, 2, 3];
    one
}
pub fn self_field(pair: &mut (String, String)) -> usize {
    let view = &pair.0;
    (pair.1, pair.0) = (String::new(), String::new());
    view.len()
}
