// a match on a borrow
pub enum Shape {
    Named(String),
    Round,
}
pub fn shape(shape: &Shape) -> String {
    match *shape {
        Shape::Named(name) => name,
        Shape::Round => String::new(),
    }
}
