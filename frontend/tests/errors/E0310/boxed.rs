// what is in a box must live forever
pub fn boxed<T: Fn()>(run: T) -> Box<dyn Fn()> {
    Box::new(run)
}
