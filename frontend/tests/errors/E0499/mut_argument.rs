// the argument that a closure writes through is itself `mut`
pub fn walk<'a>(mut slot: &'a mut u32, other: &'a mut u32) -> u32 {
    if *slot == 0 {
        slot = other;
    }
    let view = &mut *slot;
    let mut set = || *slot = 1;
    set();
    *view
}
