// a struct holds the first borrow
pub struct Pen<'a> {
    paper: &'a mut String,
}
impl<'a> Pen<'a> {
    fn write(&mut self, word: &str) {
        self.paper.push_str(word);
    }
}
pub fn two_pens(mut paper: String) -> String {
    let mut left = Pen { paper: &mut paper };
    let mut right = Pen { paper: &mut paper };
    left.write("one");
    right.write("two");
    paper
}
