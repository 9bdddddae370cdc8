// a closure takes it
pub fn captured() -> u32 {
    let number: u32;
    let work = || number + 1;
    work()
}
