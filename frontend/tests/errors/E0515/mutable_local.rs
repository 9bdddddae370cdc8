// a mutable borrow of a local variable
pub fn slot<'a>() -> &'a mut u32 {
    let mut number = 1;
    let slot = &mut number;
    slot
}
