// two are known, the third is not
pub fn three<'a, 'b, 'c>(one: &'a str, two: &'b str, _: &'c str) -> (&'c str, &'a str)
where
    'a: 'b,
    'b: 'c,
{
    (one, two)
}
