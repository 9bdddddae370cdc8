// a closure writes through `self`, and a method is called
pub struct Counter {
    count: u32,
}
impl Counter {
    fn add(&mut self) {
        self.count += 1;
    }
    pub fn twice(&mut self) -> u32 {
        let mut reset = || self.count = 0;
        self.add();
        reset();
        1
    }
}
