// a reference is borrowed again
fn add(slot: &mut u32) {
    *slot += 1;
}
pub fn twice(slot: &mut u32) -> &mut u32 {
    add(slot);
    let again = &mut *slot;
    add(again);
    add(slot);
    slot
}
