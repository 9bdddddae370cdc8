// an object that borrows a local variable
pub fn object() -> Box<dyn Iterator<Item = u32>> {
    let list = vec![1, 2];
    Box::new(list.iter().copied())
}
