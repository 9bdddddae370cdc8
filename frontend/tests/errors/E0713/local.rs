// of a local variable
pub struct Wrap<'a> {
    inner: &'a mut u8,
}
impl Drop for Wrap<'_> {
    fn drop(&mut self) {
        *self.inner = 0;
    }
}
pub fn local<'a>(byte: &'a mut u8) -> &'a mut u8 {
    let wrap = Wrap { inner: byte };
    &mut *wrap.inner
}
