// used before it has a value
pub fn unassigned() -> u32 {
    let number: u32;
    number + 1
}
