// objects with lifetimes
pub trait Visit {
    fn visit(&mut self, word: &str);
}
pub struct Collect<'a>(&'a mut Vec<String>);
impl Visit for Collect<'_> {
    fn visit(&mut self, word: &str) {
        self.0.push(word.to_string());
    }
}
pub fn walk(words: &[&str], visitor: &mut dyn Visit) {
    words.iter().for_each(|word| visitor.visit(word));
}
pub fn run(words: &[&str]) -> Vec<String> {
    let mut list = Vec::new();
    walk(words, &mut Collect(&mut list));
    let mut boxed: Box<dyn Visit + '_> = Box::new(Collect(&mut list));
    boxed.visit("last");
    drop(boxed);
    list
}
