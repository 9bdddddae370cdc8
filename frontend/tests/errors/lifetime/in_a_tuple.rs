// one of two lifetimes in a type
pub fn swap(list: &mut Vec<(&u8, &str)>, one: &u8) {
    list[0].0 = one;
}
