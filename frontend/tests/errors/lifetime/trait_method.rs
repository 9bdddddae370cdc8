// the impl of a trait's method
pub trait Pick<'a> {
    fn pick(&self, left: &'a str, right: &str) -> &'a str;
}
pub struct Cache<'c>(&'c str);
impl<'a, 'c> Pick<'a> for Cache<'c> {
    fn pick(&self, left: &'a str, _: &str) -> &'a str {
        if self.0.is_empty() {
            return left;
        }
        self.0
    }
}
