// the opaque result holds its argument
fn odd(list: &[u32]) -> impl Iterator<Item = &u32> {
    list.iter().filter(|item| **item % 2 == 1)
}
pub fn keep(mut list: Vec<u32>) -> usize {
    let found = odd(&list);
    list.clear();
    found.count()
}
