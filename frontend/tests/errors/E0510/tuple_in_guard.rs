// a part of a tuple that is matched
pub fn part(mut pair: (u32, bool)) -> u32 {
    match pair {
        (0, _) => 0,
        (_, true) if { pair.1 = false; true } => 1,
        (number, _) => number,
    }
}
