// the index is borrowed
pub fn at(list: &[u32]) -> u32 {
    let mut index = 0;
    let next = &mut index;
    let found = list[index];
    *next += 1;
    found
}
