// a call wants what lives forever
fn forever(_: &'static str) {}
pub fn give() {
    let text = String::from("text");
    forever(&text);
}
