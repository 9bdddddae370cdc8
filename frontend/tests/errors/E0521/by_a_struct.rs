// a struct whose method wants its lifetime forever
pub struct Name<'a>(&'a str);
impl Name<'static> {
    fn forever(&self) -> usize {
        self.0.len()
    }
}
pub fn name(name: &Name<'_>) -> usize {
    name.forever()
}
