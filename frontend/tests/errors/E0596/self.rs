// `self` is shared
pub struct Bag {
    items: Vec<u32>,
}
impl Bag {
    pub fn add(&self, item: u32) {
        self.items.push(item);
    }
}
