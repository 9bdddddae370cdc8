// in an option
pub fn option(list: &[u32]) -> Option<&u32> {
    let copy = list.to_vec();
    copy.first()
}
