// what is assigned is dropped first
pub fn renew(mut words: Vec<String>) -> usize {
    let first = &words[0];
    words = vec![];
    first.len() + words.len()
}
