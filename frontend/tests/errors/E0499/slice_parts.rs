// a slice is borrowed part by part, but by an index that is no constant
pub fn exchange(cells: &mut [String], left: usize, right: usize) {
    let one = &mut cells[left];
    let two = &mut cells[right];
    std::mem::swap(one, two);
}
