// an arm leaves it out
pub fn arm(slot: Option<u32>) -> u32 {
    let found;
    match slot {
        Some(number) if number > 1 => found = number,
        Some(_) => {}
        None => found = 0,
    }
    found
}
