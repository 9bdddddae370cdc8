// out of a slice
pub fn index(list: &[String]) -> String {
    let first = list[0];
    first
}
