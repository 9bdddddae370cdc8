// operators that assign, built in and of a trait
use std::ops::AddAssign;
pub struct Sum(u32);
impl AddAssign<u32> for Sum {
    fn add_assign(&mut self, other: u32) {
        self.0 += other;
    }
}
impl Sum {
    fn get(&self) -> u32 {
        self.0
    }
    fn step(&mut self) -> u32 {
        self.0 += 1;
        self.0
    }
}
pub fn reads(mut sum: Sum) {
    sum += sum.get();
}
pub fn steps(mut sum: Sum) {
    sum += sum.step();
}
pub fn built_in(mut at: u32) {
    let slot = &mut at;
    at += 1;
    *slot = 2;
}
pub fn strings(mut text: String) {
    text += &text.clone();
    text += &text;
}
