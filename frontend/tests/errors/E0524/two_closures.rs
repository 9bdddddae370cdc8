// two closures write through one reference
pub fn two(slot: &mut u32) {
    let mut up = || *slot += 1;
    let mut down = || *slot -= 1;
    up();
    down();
}
