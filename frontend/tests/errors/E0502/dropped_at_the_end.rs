// the end of the block drops what holds the borrow
pub struct Guard<'a>(&'a Vec<u32>);
impl Drop for Guard<'_> {
    fn drop(&mut self) {
        println!("{}", self.0.len());
    }
}
pub fn guarded(mut list: Vec<u32>) {
    let _guard = Guard(&list);
    list.push(1);
}
