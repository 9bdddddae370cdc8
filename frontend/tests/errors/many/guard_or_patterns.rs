// several patterns before one guard
pub enum Kind {
    First(String, u32),
    Second(u32, String),
    None,
}
pub fn run(mut kind: Kind) -> u32 {
    match kind {
        Kind::First(ref text, count) | Kind::Second(count, ref text)
            if text.len() as u32 == count =>
        {
            kind = Kind::None;
            count + text.len() as u32
        }
        Kind::First(ref mut text, _) | Kind::Second(_, ref mut text) => {
            drop(kind);
            text.push('a');
            1
        }
        Kind::None => 0,
    }
}
