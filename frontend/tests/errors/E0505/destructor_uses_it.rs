// a destructor at the end of the block looks at it
pub struct Logger<'a>(&'a String);
impl Drop for Logger<'_> {
    fn drop(&mut self) {
        println!("{}", self.0);
    }
}
pub fn log(text: String) -> String {
    let _logger = Logger(&text);
    text
}
