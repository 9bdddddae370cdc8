// what was moved in
pub fn moved(mut list: Vec<u32>) -> impl FnMut() -> usize {
    let mut first = move || -> &mut u32 { &mut list[0] };
    *first() = 1;
    || 0
}
