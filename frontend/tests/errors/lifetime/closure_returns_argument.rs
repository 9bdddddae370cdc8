// a closure whose argument is returned, without a name that ties them
pub fn closure() -> usize {
    let same = |word: &str| -> &str { word };
    same("word").len()
}
