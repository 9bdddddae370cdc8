// a loan ends where its variable has a new value
pub fn again(mut words: Vec<String>, other: &str) -> usize {
    let mut view: &str = &words[0];
    println!("{view}");
    view = other;
    words.clear();
    view.len() + words.len()
}
