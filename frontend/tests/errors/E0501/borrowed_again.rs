// borrowed again as mutable
pub fn again(slot: &mut u32) -> u32 {
    let mut add = || *slot += 1;
    let other = &mut *slot;
    *other = 2;
    add();
    3
}
