// a field is borrowed, then the whole
pub struct Pair {
    left: u32,
    right: u32,
}
fn sum(pair: &mut Pair) -> u32 {
    pair.left + pair.right
}
pub fn both(mut pair: Pair) -> u32 {
    let left = &mut pair.left;
    let total = sum(&mut pair);
    *left += total;
    pair.left
}
