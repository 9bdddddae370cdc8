// a list that a macro makes
pub fn vector<'a>() -> &'a Vec<u32> {
    &vec![1, 2, 3]
}
