// a local variable
pub fn local() -> Box<dyn FnMut() -> u32> {
    let mut count = 0;
    Box::new(|| {
        count += 1;
        count
    })
}
