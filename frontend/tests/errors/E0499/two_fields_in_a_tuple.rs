// a tuple of two borrows of one variable
pub fn pair() -> (u32, u32) {
    let mut number = 1;
    let (one, two) = (&mut number, &mut number);
    *one += 1;
    *two += 1;
    (*one, *two)
}
