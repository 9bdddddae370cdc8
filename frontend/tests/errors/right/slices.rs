// a slice is cut in two
pub fn halves(cells: &mut [u32]) -> u32 {
    let middle = cells.len() / 2;
    let (left, right) = cells.split_at_mut(middle);
    for (one, two) in left.iter_mut().zip(right.iter_mut()) {
        std::mem::swap(one, two);
    }
    let [first, .., last] = cells else { return 0 };
    *first += *last;
    *first
}
