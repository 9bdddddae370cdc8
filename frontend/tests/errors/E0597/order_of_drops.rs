// variables are dropped in the reverse order
pub struct Holder<'a>(Option<&'a String>);
impl Drop for Holder<'_> {
    fn drop(&mut self) {
        println!("{:?}", self.0);
    }
}
pub fn order() {
    let mut holder = Holder(None);
    let text = String::new();
    holder.0 = Some(&text);
}
