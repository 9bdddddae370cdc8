// both borrows by one method call
pub struct Table {
    cells: Vec<u32>,
}
impl Table {
    fn cell(&self) -> &u32 {
        &self.cells[0]
    }
    fn set(&mut self, value: &u32) {
        self.cells[0] = *value;
    }
    pub fn copy(&mut self) {
        self.set(self.cell());
    }
}
