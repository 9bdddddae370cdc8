// passed to a function that relates two
fn relate<'a: 'b, 'b>(_: &'a str, _: &'b str) {}
pub fn pass<'a, 'b>(left: &'a str, right: &'b str) {
    relate::<'a, 'b>(left, right);
}
