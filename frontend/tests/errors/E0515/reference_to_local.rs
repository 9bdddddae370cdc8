// the borrow of a local variable
pub fn name() -> &'static str {
    let text = String::from("name");
    &text
}
