// a closure that is returned borrows an argument
pub fn adder(step: u32) -> impl Fn(u32) -> u32 {
    |number| number + step
}
