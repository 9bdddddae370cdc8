// a lifetime without a name
pub trait Show {}
pub fn boxed<T: Show>(value: T, _: &u8) -> Box<dyn Show + '_> {
    Box::new(value)
}
