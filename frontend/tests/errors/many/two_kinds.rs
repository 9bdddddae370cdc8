// a loan and a move in one function
pub fn both(mut list: Vec<u32>, text: String) -> usize {
    let first = &list[0];
    list.push(*first);
    println!("{first}");
    drop(text);
    text.len()
}
