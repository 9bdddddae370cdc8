// an argument
pub fn argument(count: u32) -> u32 {
    count += 1;
    count
}
