// the item of an iterator
pub struct Words<'t> {
    rest: &'t str,
}
impl<'t> Iterator for Words<'t> {
    type Item = &'t str;
    fn next(&mut self) -> Option<&'t str> {
        let (word, rest) = self.rest.split_once(' ')?;
        self.rest = rest;
        Some(word)
    }
}
pub fn collect<'a, 'b>(words: Words<'a>, into: &mut Vec<&'b str>) {
    into.extend(words);
}
