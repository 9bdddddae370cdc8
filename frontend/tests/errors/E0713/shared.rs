// a shared borrow through a mutable one
pub struct Log<'a> {
    lines: &'a mut Vec<String>,
}
impl<'a> Drop for Log<'a> {
    fn drop(&mut self) {
        self.lines.push(String::new());
    }
}
pub fn first<'a>(log: Log<'a>) -> &'a String {
    &log.lines[0]
}
