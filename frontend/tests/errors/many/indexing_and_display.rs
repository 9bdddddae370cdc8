use std::borrow::Borrow;
use std::collections::HashMap;
use std::fmt;
use std::ops::{Index, IndexMut};
pub struct Grid<T> {
    cells: Vec<T>,
    width: usize,
}
impl<T> Index<(usize, usize)> for Grid<T> {
    type Output = T;
    fn index(&self, (x, y): (usize, usize)) -> &T {
        &self.cells[y * self.width + x]
    }
}
impl<T> IndexMut<(usize, usize)> for Grid<T> {
    fn index_mut(&mut self, (x, y): (usize, usize)) -> &mut T {
        let width = &mut self.width;
        let cell = &mut self.cells[y * *width + x];
        self.width += 1;
        *width += 1;
        cell
    }
}
impl<T: Clone> Grid<T> {
    pub fn swap(&mut self, a: (usize, usize), b: (usize, usize)) {
        let one = &mut self[a];
        let two = &mut self[b];
        std::mem::swap(one, two);
    }
    pub fn copy(&mut self, a: (usize, usize), b: (usize, usize)) {
        self[a] = self[b].clone();
        let from = &self[b];
        self[a] = from.clone();
        self[b] = from.clone();
    }
    pub fn take(&self, a: (usize, usize)) -> T {
        self[a]
    }
    pub fn rows<'g>(&'g mut self) -> Rows<'g, T> {
        Rows { grid: self, at: 0 }
    }
    pub fn each(&mut self) {
        for row in self.rows() {
            for cell in row {
                self.cells.push(cell.clone());
            }
        }
    }
}
pub struct Rows<'g, T> {
    grid: &'g mut Grid<T>,
    at: usize,
}
impl<'g, T> Iterator for Rows<'g, T> {
    type Item = &'g mut [T];
    fn next(&mut self) -> Option<Self::Item> {
        let begin = self.at * self.grid.width;
        self.at += 1;
        self.grid
            .cells
            .get_mut(begin..begin + self.grid.width)
    }
}
impl<T: fmt::Display> fmt::Display for Grid<T> {
    fn fmt(&self, f: &mut fmt::Formatter<'_>) -> fmt::Result {
        let out = &mut *f;
        for cell in &self.cells {
            write!(f, "{}", cell)?;
            out.write_str(" ")?;
        }
        Ok(())
    }
}
impl<T> Drop for Grid<T> {
    fn drop(&mut self) {
        let cells = self.cells;
        drop(cells);
    }
}
pub fn cells<T>(grid: Grid<T>) -> Vec<T> {
    grid.cells
}
pub struct Cache<'c, K, V> {
    map: HashMap<K, V>,
    last: Option<&'c V>,
}
impl<'c, K: std::hash::Hash + Eq + Clone, V> Cache<'c, K, V> {
    pub fn get<Q: Borrow<K>>(&'c mut self, key: Q) -> Option<&'c V> {
        self.last = self.map.get(key.borrow());
        self.map.remove(key.borrow());
        self.last
    }
    pub fn get_twice(&mut self, key: K) -> bool {
        let one = self.get(key.clone()).is_some();
        let two = self.get(key).is_some();
        one && two
    }
    pub fn keep(&mut self, value: &V) {
        self.last = Some(value);
    }
}
