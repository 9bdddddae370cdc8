// a type whose lifetime must be forever
pub struct Forever<'a: 'static>(pub &'a u8);
pub fn held<'a>(_: &'a u8) {
    let _none: Option<Forever<'a>>;
}
