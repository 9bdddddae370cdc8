// a mutable reference isn't copied
pub fn reference(slot: &mut u32) -> u32 {
    let one = slot;
    let two = slot;
    *one + *two
}
