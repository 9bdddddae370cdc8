// put into a struct
pub struct Label<'a> {
    text: &'a str,
}
pub fn set<'a>(label: &mut Label<'a>, text: &str) {
    label.text = text;
}
