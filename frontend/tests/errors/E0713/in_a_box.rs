// in a box
pub struct Seal<'a>(&'a mut u32);
impl Drop for Seal<'_> {
    fn drop(&mut self) {
        *self.0 += 1;
    }
}
pub fn broken<'a>(seal: Box<Seal<'a>>) -> &'a mut u32 {
    &mut *seal.0
}
