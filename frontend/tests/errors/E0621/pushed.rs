// pushed to a list of named borrows
pub fn push<'a>(list: &mut Vec<&'a str>, word: &str) {
    list.push(word);
}
