// out of a list
pub fn list(list: &Vec<String>) -> String {
    let first = list[0];
    first
}
