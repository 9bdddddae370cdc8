// operators of traits borrow, move and are called
use std::ops::{Add, Deref, DerefMut, Index, IndexMut, Neg, Not};
#[derive(Clone)]
pub struct Big(Vec<u32>);
impl Add for Big {
    type Output = Big;
    fn add(self, _: Big) -> Big {
        self
    }
}
impl<'a> Add<&'a Big> for &'a Big {
    type Output = Big;
    fn add(self, _: &Big) -> Big {
        self.clone()
    }
}
impl Neg for Big {
    type Output = Big;
    fn neg(self) -> Big {
        self
    }
}
impl Not for &mut Big {
    type Output = u32;
    fn not(self) -> u32 {
        self.0.clear();
        1
    }
}
impl Index<&str> for Big {
    type Output = u32;
    fn index(&self, _: &str) -> &u32 {
        &self.0[0]
    }
}
impl IndexMut<&str> for Big {
    fn index_mut(&mut self, _: &str) -> &mut u32 {
        &mut self.0[0]
    }
}
pub struct Smart(Big);
impl Deref for Smart {
    type Target = Big;
    fn deref(&self) -> &Big {
        &self.0
    }
}
impl DerefMut for Smart {
    fn deref_mut(&mut self) -> &mut Big {
        &mut self.0
    }
}
pub fn added(one: Big, other: Big) -> usize {
    let sum = one + other.clone();
    sum.0.len() + one.0.len() + other.0.len()
}
pub fn same(one: Big) -> Big {
    one + one
}
pub fn negated(one: Big) -> (Big, Big) {
    (-one, one)
}
pub fn inverted(mut one: Big) -> u32 {
    let first = &one["a"];
    let other = !&mut one;
    *first + other
}
pub fn two_keys(mut one: Big) {
    let first = &mut one["a"];
    let other = &mut one["b"];
    *first += *other;
}
pub fn key_of_itself(mut one: Big, names: Vec<String>) {
    one[&names[one["a"] as usize]] += 1;
    one[names[0].as_str()] = one["b"];
}
pub fn smart(mut one: Smart) -> u32 {
    let first = &one.0 .0[0];
    one.0 .0.push(1);
    *first
}
pub fn smart_fields(mut one: Smart) -> usize {
    let list = &mut one.deref_mut().0;
    let again = &mut one.0 .0;
    list.push(1);
    again.len()
}
pub fn compared(one: Big, other: Big) -> bool {
    let moved = one;
    one.0 == other.0 && moved.0 > other.0
}
