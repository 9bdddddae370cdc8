// what a loan must outlive is asked by a call in another line than the one that borrows
#[derive(Clone, Copy)]
pub struct Cursor<'a> {
    rest: &'a str,
}
impl<'a> Cursor<'a> {
    fn advance(&'a self, at: usize) -> Cursor<'a> {
        Cursor {
            rest: &self.rest[at..],
        }
    }
}
fn comment(_: Cursor<'static>, _: &mut Vec<u32>) -> Option<usize> {
    None
}
pub fn stream(mut input: Cursor) -> Vec<u32> {
    let mut trees = Vec::new();
    loop {
        if let Some(at) = comment(input, &mut trees) {
            trees.push(at as u32);
            continue;
        }
        match input.rest.as_bytes().first() {
            None => return trees,
            Some(b'(') => {
                input = input.advance(1);
                trees.push(1);
            }
            Some(_) => input = input.advance(2),
        }
    }
}
