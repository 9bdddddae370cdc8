// in an iterator that is returned
pub fn scaled(list: Vec<u32>, factor: u32) -> impl Iterator<Item = u32> {
    list.into_iter().map(|item| item * factor)
}
