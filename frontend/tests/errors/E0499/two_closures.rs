// two closures that write one variable
pub fn count() -> u32 {
    let mut total = 0;
    let mut up = || total += 1;
    let mut down = || total -= 1;
    up();
    down();
    total
}
