// an array's element
pub fn array() -> usize {
    let first;
    {
        let words = [String::new(), String::new()];
        first = &words[0];
    }
    first.len()
}
