// a mutable borrow of what the closure has can't leave it
pub fn closure() -> usize {
    let mut list = vec![1];
    let mut inner = || &mut list;
    inner().len()
}
