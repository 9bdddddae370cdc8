// a call wants it
fn keep<'a, T: 'a>(place: &'a u8, _: T) -> &'a u8 {
    place
}
pub fn call<T>(place: &u8, value: T) -> &u8 {
    keep(place, value)
}
