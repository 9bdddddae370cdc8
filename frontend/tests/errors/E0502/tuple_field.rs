// a field of a tuple, and the tuple
pub fn tuple(mut pair: (String, u32)) -> usize {
    let name = &pair.0;
    let whole = &mut pair;
    whole.1 += 1;
    name.len()
}
