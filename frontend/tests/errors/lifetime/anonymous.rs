// two lifetimes without names
pub fn keep(list: &mut Vec<&u8>, one: &u8) {
    list.push(one);
}
