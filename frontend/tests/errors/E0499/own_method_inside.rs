// the argument of a method borrows as the method does
pub struct Counter {
    count: u32,
}
impl Counter {
    fn slot(&mut self) -> &mut u32 {
        &mut self.count
    }
    fn next(&mut self) -> u32 {
        self.count += 1;
        self.count
    }
    pub fn both(&mut self) {
        let slot = self.slot();
        *slot += self.next();
    }
}
