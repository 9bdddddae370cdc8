// a condition reads it
pub fn decide(mut flag: bool) -> bool {
    let slot = &mut flag;
    if flag {
        *slot = false;
    }
    *slot
}
