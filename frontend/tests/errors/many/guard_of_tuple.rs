// a guard that calls a closure which writes what is matched
pub fn closure(mut one: u32, other: bool) -> u32 {
    let mut write = || one = 2;
    match (one, other) {
        (1, _)
            if {
                write();
                true
            } =>
        {
            1
        }
        (2, true) => 2,
        _ => 0,
    }
}
pub fn through(pair: &mut (u32, u32)) -> u32 {
    match *pair {
        (1, _)
            if {
                pair.0 = 2;
                true
            } =>
        {
            1
        }
        (_, 2)
            if {
                pair.1 = 1;
                false
            } =>
        {
            2
        }
        (one, other) => one + other,
    }
}
pub fn slice(list: &mut [u32]) -> u32 {
    match list {
        [one, ..]
            if {
                list[0] = 1;
                *one == 1
            } =>
        {
            1
        }
        [.., last] => *last,
        [] => 0,
    }
}
