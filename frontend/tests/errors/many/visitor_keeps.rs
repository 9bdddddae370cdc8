pub trait Visitor<'v> {
    fn visit(&mut self, text: &'v str);
}
pub struct Longest<'l>(&'l str);
impl<'a, 'l> Visitor<'a> for Longest<'l> {
    fn visit(&mut self, text: &'a str) {
        if text.len() > self.0.len() {
            self.0 = text;
        }
    }
}
impl<'v, 'c: 'v> Visitor<'v> for &'v mut Option<&'c str> {
    fn visit(&mut self, text: &'v str) {
        **self = Some(text);
    }
}
