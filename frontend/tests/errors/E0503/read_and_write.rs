// `+=` of a number reads it first
pub fn twice(mut number: u32) -> u32 {
    let slot = &mut number;
    number += 1;
    *slot
}
