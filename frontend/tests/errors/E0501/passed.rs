// passed to a function
fn show(number: &u32) -> u32 {
    *number
}
pub fn passed(slot: &mut u32) -> u32 {
    let mut add = || *slot += 1;
    let seen = show(slot);
    add();
    seen
}
