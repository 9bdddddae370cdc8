//! Right functions that are easily told wrong.

fn length<'a>(text: &'a mut String) -> impl Fn() -> usize + 'static + use<'a> {
    let length = text.len();
    move || length
}

// The result names the lifetime of `text`, and yet is 'static.
pub fn both(text: &mut String) -> usize {
    let before = length(text);
    let after = length(text);
    before() + after()
}

pub trait Lender {
    type Lent<'a>: 'static
    where
        Self: 'a;
    fn lend<'a>(&'a mut self) -> Self::Lent<'a>;
}

pub fn twice<L: Lender>(lender: &mut L) {
    let first = lender.lend();
    let second = lender.lend();
    drop(second);
    drop(first);
}
