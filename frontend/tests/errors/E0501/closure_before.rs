// a closure writes through a reference that is read
pub fn before(slot: &mut u32) -> u32 {
    let mut add = || *slot += 1;
    let view = &*slot;
    let seen = *view;
    add();
    seen
}
