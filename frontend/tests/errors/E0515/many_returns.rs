// several loans of one variable, on ways that end at several returns
#[derive(Clone, Copy)]
pub struct Cursor<'a> {
    rest: &'a str,
}
impl<'a> Cursor<'a> {
    fn advance(&'a self, at: usize) -> Cursor<'a> {
        Cursor {
            rest: &self.rest[at..],
        }
    }
}
pub fn skip(input: Cursor) -> Cursor {
    let mut s = input;
    while !s.rest.is_empty() {
        let byte = s.rest.as_bytes()[0];
        if byte == b'/' {
            if s.rest.starts_with("//") {
                s = s.advance(2);
                continue;
            } else if s.rest.starts_with("*") {
                return s;
            }
        }
        match byte {
            b' ' => {
                s = s.advance(1);
                continue;
            }
            b'a' => {}
            _ => {
                s = s.advance(3);
                continue;
            }
        }
        return s;
    }
    s
}
