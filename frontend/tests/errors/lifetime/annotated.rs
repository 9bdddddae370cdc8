// a type of a variable
pub fn annotated<'a, 'b>(left: &'a str, _: &'b str) -> usize {
    let same: &'b str = left;
    same.len()
}
