// each way borrows for itself
pub fn ways(left: &mut String, right: &mut String, flag: bool) -> usize {
    let chosen = if flag { &mut *left } else { &mut *right };
    chosen.push('a');
    left.push('b');
    right.push('c');
    left.len() + right.len()
}
