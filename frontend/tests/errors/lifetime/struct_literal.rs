// a struct whose fields share a lifetime
pub struct Pair<'a> {
    left: &'a str,
    right: &'a str,
}
pub fn pair<'a, 'b>(left: &'a str, right: &'b str) -> Pair<'a> {
    Pair { left, right }
}
impl Pair<'_> {
    pub fn size(&self) -> usize {
        self.left.len() + self.right.len()
    }
}
