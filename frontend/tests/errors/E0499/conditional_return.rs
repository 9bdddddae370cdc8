// the loan is returned on one way; rustc holds it on the other one, too
pub fn first_or_new(list: &mut Vec<String>) -> &mut String {
    if let Some(first) = list.first_mut() {
        return first;
    }
    list.push(String::new());
    let last = list.len() - 1;
    &mut list[last]
}
