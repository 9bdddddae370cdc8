// a method of a trait object
pub trait Tape {
    fn cell(&mut self) -> &mut u8;
}
pub fn add(tape: &mut dyn Tape) {
    let one = tape.cell();
    let two = tape.cell();
    *one += *two;
}
