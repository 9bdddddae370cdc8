// an item is used before the next one is lent
pub trait Lend {
    type Item<'a>
    where
        Self: 'a;
    fn next<'a>(&'a mut self) -> Option<Self::Item<'a>>;
}
pub fn count<L: Lend>(lender: &mut L) -> usize {
    let mut count = 0;
    while let Some(_item) = lender.next() {
        count += 1;
    }
    count
}
