// assigned on one way alone
pub fn branch(flag: bool) -> u32 {
    let number;
    if flag {
        number = 1;
    }
    number
}
