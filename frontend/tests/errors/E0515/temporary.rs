// the borrow of a temporary
pub fn temporary<'a>() -> &'a String {
    &String::new()
}
