// assigned while it is borrowed
pub fn set(mut number: u32) -> u32 {
    let view = &number;
    number = 2;
    *view
}
