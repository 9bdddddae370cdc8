// `+=` reads and writes what is behind a pointer
pub struct Hand<'a> {
    pointer: &'a mut u32,
}
fn lend<'a>(hand: &'a mut Hand<'_>) -> Hand<'a> {
    Hand { pointer: &mut *hand.pointer }
}
pub fn twice(mut hand: Hand<'_>) {
    let other = lend(&mut hand);
    *hand.pointer += 1;
    *other.pointer += 1;
}
