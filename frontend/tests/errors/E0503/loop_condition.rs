// the condition of a loop
pub fn loops(mut rest: u32) -> u32 {
    let slot = &mut rest;
    while rest > 0 {
        *slot -= 1;
    }
    0
}
