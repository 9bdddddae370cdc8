// the iterator of a mutable list is alive in the whole loop
pub fn repeat(list: &mut Vec<u32>) {
    for item in list.iter_mut() {
        list.push(*item);
    }
}
