// one statement goes against two loans
pub fn loans(mut list: Vec<u32>) -> u32 {
    let one = &list[0];
    let two = &list[1];
    list.clear();
    *one + *two
}
