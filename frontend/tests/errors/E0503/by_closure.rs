// a closure writes it meanwhile
pub fn count() -> u32 {
    let mut total = 1;
    let mut add = || total += 1;
    let before = total * 2;
    add();
    before
}
