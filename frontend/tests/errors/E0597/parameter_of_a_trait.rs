// a trait wants a lifetime of the caller's
pub trait Sink<'a> {
    fn take(&mut self, word: &'a str);
}
pub fn feed<'a>(sink: &mut impl Sink<'a>) {
    let text = String::from("text");
    sink.take(&text);
}
