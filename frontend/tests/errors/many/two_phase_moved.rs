// what an argument takes is what the receiver has borrowed
pub struct Owner(String);
impl Owner {
    fn put(&mut self, text: String) {
        self.0 = text;
    }
    fn put_all(&mut self, _: Owner) {}
    fn count(&self, other: &mut Owner) -> usize {
        other.0.clear();
        self.0.len()
    }
}
pub fn own(mut one: Owner) {
    one.put_all(one);
}
pub fn part(mut one: Owner) {
    one.put(one.0);
}
pub fn both(mut one: Owner) -> usize {
    one.count(&mut one)
}
pub fn assigned(mut one: Owner) {
    one.put({
        one = Owner(String::new());
        String::new()
    });
}
