// a borrow of a borrow
pub fn nested<'a>(words: &mut Vec<&'a str>, text: &'a str) -> &'a str {
    let mut best = "";
    for word in text.split(' ') {
        words.push(word);
    }
    for word in words.iter() {
        if word.len() > best.len() {
            best = word;
        }
    }
    words.clear();
    best
}
