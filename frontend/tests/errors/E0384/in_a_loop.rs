// in a loop
pub fn loops() -> u32 {
    let last;
    for number in 0..3 {
        last = number;
        println!("{last}");
    }
    0
}
