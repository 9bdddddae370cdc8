// a call needs two bounds, and rustc names one
pub struct Two<'h, 'b>(&'h mut [&'b u8], &'b [u8]);
impl<'h, 'b> Two<'h, 'b> {
    fn set(&mut self, bytes: &'b [u8], more: &'h mut [&'b u8]) {
        self.0 = more;
        self.1 = bytes;
    }
}
pub fn call<'h, 'b>(two: &mut Two<'h, 'b>, bytes: &[u8], more: &'h mut [&'b u8]) -> usize {
    two.set(bytes, more);
    two.0.len() + two.1.len()
}
