// the loop took the list
pub fn all(list: Vec<String>) -> usize {
    for word in list {
        drop(word);
    }
    list.len()
}
