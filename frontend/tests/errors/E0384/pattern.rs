// a pattern's variable
pub fn pattern(pair: (u32, u32)) -> u32 {
    let (left, right) = pair;
    left = right;
    left
}
