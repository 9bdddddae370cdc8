// `+=` writes it
pub fn step(mut number: u32) -> u32 {
    let view = &number;
    number += 1;
    *view
}
