// a mutable borrow is kept
pub fn keep(slots: &mut Vec<&mut u32>) {
    let mut number = 1;
    slots.push(&mut number);
}
