// out of a closure's argument
pub fn gather(words: &[String]) -> usize {
    let mut kept: Vec<&String> = Vec::new();
    let mut take = |word: &String| kept.push(word);
    words.iter().for_each(|word| take(word));
    0
}
