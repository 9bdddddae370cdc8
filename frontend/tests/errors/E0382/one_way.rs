// moved on one way
pub fn way(list: Vec<u32>, flag: bool) -> Vec<u32> {
    if flag {
        drop(list);
    }
    list
}
