// a mutable borrow
pub fn slot<'a>(one: &'a mut u32, two: &mut u32) -> &'a mut u32 {
    if *one == 0 {
        two
    } else {
        one
    }
}
