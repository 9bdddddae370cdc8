// a guard assigns what is matched
pub fn guard(mut slot: Option<u32>) -> u32 {
    match slot {
        None => 0,
        Some(_) if {
            slot = None;
            false
        } =>
        {
            1
        }
        Some(number) => number,
    }
}
