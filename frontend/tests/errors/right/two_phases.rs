// a call in two phases
pub fn grow(list: &mut Vec<usize>) {
    list.push(list.len());
    let last = list.len() - 1;
    list[last] += list[0];
}
