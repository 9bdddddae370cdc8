// what is in a box must outlive a name
pub trait Show {}
pub fn boxed<'a, T: Show>(value: T, _: &'a u8) -> Box<dyn Show + 'a> {
    Box::new(value)
}
