// a type says that it lives forever
pub fn annotated() -> usize {
    let number = 3;
    let forever: &'static u32 = &number;
    *forever as usize
}
