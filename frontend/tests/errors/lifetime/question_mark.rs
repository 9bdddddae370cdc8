// given back by `?`
pub fn question<'a, 'b>(left: Option<&'a str>, right: Option<&'b str>) -> Option<&'a str> {
    let _left = left?;
    let right = right?;
    Some(right)
}
