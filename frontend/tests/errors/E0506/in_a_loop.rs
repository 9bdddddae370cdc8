// borrowed in the turn before
pub fn last(list: &[u32]) -> u32 {
    let mut current = 0;
    let mut best = &current;
    for item in list {
        current = *item;
        if current > *best {
            best = &current;
        }
    }
    *best
}
