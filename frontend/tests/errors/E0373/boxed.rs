// in a box
pub fn boxed(name: String) -> Box<dyn Fn() -> usize> {
    Box::new(|| name.len())
}
