// a lifetime of the type on `&mut self` makes one call the last
pub struct Reader<'a> {
    text: &'a str,
}
impl<'a> Reader<'a> {
    fn step(&'a mut self) -> &'a str {
        self.text = &self.text[1..];
        self.text
    }
}
pub fn twice<'a>(reader: &'a mut Reader<'a>) -> usize {
    let one = reader.step();
    let two = reader.step();
    one.len() + two.len()
}
