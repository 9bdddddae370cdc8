// a closure writes through `self`, of which a field is borrowed
pub struct Words {
    list: Vec<String>,
    size: usize,
}
impl Words {
    pub fn longest(&mut self) -> usize {
        let first = &self.list[0];
        let mut clear = || self.list = Vec::new();
        clear();
        first.len() + self.size
    }
}
