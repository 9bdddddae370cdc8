// edition: 2018
// until edition 2021 a closure captures the whole variable, be it `mut`
pub struct Slot {
    size: u32,
}
pub fn walk(mut slot: &mut Slot) -> u32 {
    let size = &mut slot.size;
    let mut set = || slot.size = 1;
    set();
    *size
}
