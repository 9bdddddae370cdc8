// a guard borrows it as mutable
pub fn taken(mut slot: Option<u32>) -> u32 {
    match slot {
        Some(_) if slot.take().is_some() => 1,
        Some(number) => number,
        None => 0,
    }
}
