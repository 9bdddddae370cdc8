// what is returned outlives the function
pub fn latest(list: &mut Vec<String>) -> &String {
    let first = &list[0];
    list.truncate(1);
    first
}
