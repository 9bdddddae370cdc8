// read while it is borrowed as mutable
pub fn pad(list: &mut Vec<usize>) {
    let first = &mut list[0];
    *first += list.len();
}
