// a guard exchanges what is behind a reference
pub fn behind(slot: &mut Option<u32>) -> u32 {
    match *slot {
        Some(_) if {
            *slot = None;
            true
        } =>
        {
            1
        }
        Some(number) => number,
        None => 0,
    }
}
