// a slice of a local variable
pub fn list<'a>() -> &'a [u32] {
    let list = vec![1, 2];
    &list[..1]
}
