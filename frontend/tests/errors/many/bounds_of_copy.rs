// `Copy` for one lifetime alone, and traits of one lifetime
pub struct Mark<'a>(&'a u8);
impl Clone for Mark<'static> {
    fn clone(&self) -> Self {
        Mark(self.0)
    }
}
impl Copy for Mark<'static> {}
pub fn twice() -> (u8, u8) {
    let one = 1;
    let mark = Mark(&one);
    let other = mark;
    (*other.0, *mark.0)
}
pub fn array<'a>(one: &'a u8) -> usize {
    let marks = [Mark(one); 3];
    marks.len()
}
pub trait Shown {
    fn shown(&self) -> u8;
}
impl Shown for Mark<'static> {
    fn shown(&self) -> u8 {
        *self.0
    }
}
pub fn by_trait<'a>(one: &'a u8) -> u8 {
    Mark(one).shown()
}
pub fn by_local() -> u8 {
    let one = 1;
    Mark(&one).shown()
}
