// the words of a text that changes
pub fn words(text: &mut String) -> usize {
    let all: Vec<&str> = text.split(' ').collect();
    text.push('.');
    all.len()
}
