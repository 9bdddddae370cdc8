// a struct of references holds it
pub struct View<'a> {
    lines: Vec<&'a str>,
}
impl View<'_> {
    fn count(&self) -> usize {
        self.lines.len()
    }
}
pub fn view(mut text: String) -> usize {
    let view = View { lines: text.lines().collect() };
    text.clear();
    view.count()
}
