// by a bound of a parameter
use std::ops::IndexMut;
pub fn fill<C: IndexMut<usize, Output = String>>(cells: &mut C) {
    let first = &mut cells[0];
    let second = &mut cells[1];
    first.push_str(second);
}
