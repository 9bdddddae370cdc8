// a mutable reference is invariant in what it is to
pub fn lend<'a, 'b: 'a>(slot: &'a mut &'b str) -> &'a mut &'a str {
    slot
}
