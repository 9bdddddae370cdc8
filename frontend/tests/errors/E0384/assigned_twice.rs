// assigned twice
pub fn twice() -> u32 {
    let number = 1;
    println!("{number}");
    number = 2;
    number
}
