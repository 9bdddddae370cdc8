// a closure writes through a reference that is borrowed
pub fn outer(slot: &mut u32) -> u32 {
    let view = &mut *slot;
    let mut add = || *slot += 1;
    add();
    *view
}
