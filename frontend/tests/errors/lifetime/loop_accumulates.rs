// kept in a loop
pub fn best<'a, 'b>(list: &[&'a str], other: &'b str) -> &'b str {
    let mut best = other;
    for word in list {
        if word.len() > best.len() {
            best = word;
        }
    }
    best
}
