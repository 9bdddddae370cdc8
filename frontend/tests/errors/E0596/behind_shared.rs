// behind a shared reference
pub fn shared(list: &Vec<u32>) {
    list.push(1);
}
