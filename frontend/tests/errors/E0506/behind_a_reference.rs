// what a mutable reference is to
pub fn behind(slot: &mut u32) -> u32 {
    let view = &*slot;
    *slot = 7;
    *view
}
