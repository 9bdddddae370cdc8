// `Some(ref mut ..)` is a borrow, too
pub fn double(mut slot: Option<String>) -> Option<String> {
    if let Some(ref mut one) = slot {
        if let Some(ref mut two) = slot {
            two.push('x');
        }
        one.push('y');
    }
    slot
}
