// put into a list while it is borrowed
pub fn collect(word: String) -> Vec<String> {
    let mut list = Vec::new();
    let view = &word;
    list.push(word);
    println!("{view}");
    list
}
