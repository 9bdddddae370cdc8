// two elements of one list, each borrowed as mutable
pub fn swap(list: &mut Vec<u32>) {
    let first = &mut list[0];
    let last = &mut list[1];
    std::mem::swap(first, last);
}
