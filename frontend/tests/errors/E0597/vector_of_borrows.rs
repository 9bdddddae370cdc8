// a list outlives what is put in
pub fn gather(count: u32) -> usize {
    let mut list = Vec::new();
    for number in 0..count {
        let text = number.to_string();
        list.push(text.as_str());
    }
    list.len()
}
