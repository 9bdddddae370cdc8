// a loop that may not run
pub fn loops(count: u32) -> u32 {
    let last;
    for number in 0..count {
        last = number;
        if last == 3 {
            break;
        }
    }
    last
}
