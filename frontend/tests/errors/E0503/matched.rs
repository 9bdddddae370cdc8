// a match reads it
pub fn kind(mut number: u8) -> u8 {
    let slot = &mut number;
    let found = match number {
        0 => 1,
        _ => 2,
    };
    *slot = found;
    number
}
