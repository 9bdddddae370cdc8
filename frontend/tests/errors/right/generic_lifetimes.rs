// names that are related
pub fn longest<'a, 'b: 'a>(left: &'a str, right: &'b str) -> &'a str {
    if left.len() > right.len() {
        left
    } else {
        right
    }
}
pub struct Split<'t, 's> {
    text: &'t str,
    sign: &'s str,
}
impl<'t, 's> Iterator for Split<'t, 's> {
    type Item = &'t str;
    fn next(&mut self) -> Option<&'t str> {
        let (word, rest) = self.text.split_once(self.sign)?;
        self.text = rest;
        Some(word)
    }
}
