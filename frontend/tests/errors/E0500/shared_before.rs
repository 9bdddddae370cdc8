// read before, written by a closure
pub fn shared(slot: &mut Vec<u32>) -> usize {
    let view = &slot[0];
    let mut clear = || *slot = Vec::new();
    clear();
    *view as usize
}
