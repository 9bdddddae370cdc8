// in a closure
pub fn nested() -> impl Fn(u32) -> Box<dyn Fn() -> u32> {
    |number| Box::new(|| number + 1)
}
