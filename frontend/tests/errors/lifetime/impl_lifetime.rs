// the lifetime of the type, and that of `self`
pub struct Reader<'a> {
    text: &'a str,
    own: String,
}
impl<'a> Reader<'a> {
    pub fn own(&self) -> &'a str {
        &self.own
    }
    pub fn text(&self) -> &'a str {
        self.text
    }
}
