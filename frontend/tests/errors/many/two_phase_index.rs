// an overloaded index is no borrow in two phases
use std::ops::{Index, IndexMut};
pub struct Grid(Vec<usize>);
impl Index<usize> for Grid {
    type Output = usize;
    fn index(&self, at: usize) -> &usize {
        &self.0[at]
    }
}
impl IndexMut<usize> for Grid {
    fn index_mut(&mut self, at: usize) -> &mut usize {
        &mut self.0[at]
    }
}
pub fn nested(mut grid: Grid) {
    grid[grid[0]] = 4;
}
pub fn nested_vec(mut list: Vec<usize>) {
    list[list[0]] = 4;
    list[list.len() - 1] += 1;
}
pub fn add(mut grid: Grid) {
    grid[1] += grid[2];
    grid[grid.0.len() - 1] += 1;
}
