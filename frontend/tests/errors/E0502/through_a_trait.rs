// by a trait's method with an associated type
pub trait Store {
    type Item<'a>
    where
        Self: 'a;
    fn get<'a>(&'a self) -> Self::Item<'a>;
    fn put(&mut self);
}
pub fn both<S: Store>(store: &mut S) {
    let item = store.get();
    store.put();
    drop(item);
}
