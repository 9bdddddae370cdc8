// in parentheses
pub fn words() -> String {
    let words: &Vec<&str>;
    words = (&vec!["hello"]);
    words.concat()
}
