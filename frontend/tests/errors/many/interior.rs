// cells and guards
use std::cell::{Cell, Ref, RefCell, RefMut};
use std::sync::{Mutex, MutexGuard, OnceLock, RwLock};
pub struct Store {
    names: RefCell<Vec<String>>,
    lock: Mutex<Vec<u32>>,
    once: OnceLock<String>,
    count: Cell<u32>,
}
impl Store {
    pub fn names(&self) -> Ref<'_, Vec<String>> {
        self.names.borrow()
    }
    pub fn first(&self) -> &str {
        &self.names.borrow()[0]
    }
    pub fn first_ref(&self) -> Ref<'_, str> {
        Ref::map(self.names.borrow(), |names| names[0].as_str())
    }
    pub fn mutable(&self) -> &mut Vec<String> {
        &mut self.names.borrow_mut()
    }
    pub fn locked(&self) -> &[u32] {
        self.lock.lock().unwrap().as_slice()
    }
    pub fn guard(&self) -> MutexGuard<'static, Vec<u32>> {
        self.lock.lock().unwrap()
    }
    pub fn once(&self) -> &'static str {
        self.once.get_or_init(String::new)
    }
    pub fn own(self) -> Vec<String> {
        let names = self.names.borrow();
        let own = self.names.into_inner();
        drop(names);
        own
    }
    pub fn exclusive(&mut self) -> usize {
        let names = self.names.borrow_mut();
        self.names.get_mut().clear();
        names.len()
    }
    pub fn map_mut(&self) -> RefMut<'_, String> {
        let mut names = self.names.borrow_mut();
        RefMut::map(names, |names| &mut names[0])
    }
    pub fn condition(&self) -> usize {
        if let Some(first) = self.names.borrow_mut().first_mut() {
            first.push('a');
        }
        let last = match self.names.borrow().last() {
            Some(last) => last.as_str(),
            None => "",
        };
        last.len()
    }
    pub fn counted(&self) -> &Cell<u32> {
        let count = &self.count;
        count.set(1);
        count
    }
}
pub fn static_guard(lock: &RwLock<String>) -> &'static str {
    let guard = lock.read().unwrap();
    &guard[..]
}
pub fn two(cell: &mut RefCell<u32>) -> u32 {
    let one = cell.get_mut();
    let other = cell.borrow();
    *one + *other
}
pub fn cell_of<'a>(cell: &Cell<&'a str>, text: &str) {
    cell.set(text);
}
pub fn cell_slice(list: &mut [u32]) -> u32 {
    let cells = Cell::from_mut(list).as_slice_of_cells();
    cells[0].set(1);
    list[0] = 2;
    cells[1].get()
}
