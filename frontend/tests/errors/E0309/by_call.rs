// a call wants it
fn keep<'a, T: 'a>(_: &'a u8, _: T) {}
pub fn call<'a, T>(lifetime: &'a u8, value: T) {
    keep::<'a, T>(lifetime, value);
}
