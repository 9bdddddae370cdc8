// two fields are two places
pub struct Pair {
    left: Vec<u32>,
    right: Vec<u32>,
}
pub fn move_over(pair: &mut Pair) {
    let Pair { left, right } = pair;
    for item in left.iter() {
        right.push(*item);
    }
    let left = &mut pair.left;
    let right = &mut pair.right;
    std::mem::swap(left, right);
}
