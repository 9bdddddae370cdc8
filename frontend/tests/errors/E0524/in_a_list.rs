// put into a list in a loop
pub fn list(slot: &mut u32) -> usize {
    let mut all: Vec<Box<dyn FnMut() + '_>> = Vec::new();
    all.push(Box::new(|| *slot += 1));
    all.push(Box::new(|| *slot += 2));
    all.len()
}
