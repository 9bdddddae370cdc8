// the loop borrows the list
pub fn clean(list: &mut Vec<u32>) {
    for item in list.iter() {
        if *item == 0 {
            list.clear();
        }
    }
}
