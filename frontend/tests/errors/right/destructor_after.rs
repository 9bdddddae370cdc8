// the destructor runs before what it looks at is gone
pub struct Guard<'a>(&'a String);
impl Drop for Guard<'_> {
    fn drop(&mut self) {
        println!("{}", self.0);
    }
}
pub fn guards() -> String {
    let text = String::from("text");
    {
        let _guard = Guard(&text);
    }
    text
}
