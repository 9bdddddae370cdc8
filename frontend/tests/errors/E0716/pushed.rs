// a temporary is put into a list
pub fn push(number: u32) -> usize {
    let mut list: Vec<&str> = Vec::new();
    list.push(&number.to_string());
    list.len()
}
