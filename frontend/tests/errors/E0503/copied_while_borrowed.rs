// a number is read while it is borrowed as mutable
pub fn add(mut number: u32) -> u32 {
    let slot = &mut number;
    let twice = number + 1;
    *slot = twice;
    number
}
