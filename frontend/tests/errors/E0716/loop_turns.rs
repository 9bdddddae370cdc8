// kept over the turns
pub fn turns(count: u32) -> usize {
    let mut last: &str = "";
    for number in 0..count {
        last = &number.to_string();
    }
    last.len()
}
