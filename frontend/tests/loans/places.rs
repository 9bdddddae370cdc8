//! Errors whose places, codes or number are hard to find: rustc's own list of constraints says them.

pub struct Forever<'a: 'static>(pub &'a u8);

// A bound of a type that is written alone asks for it.
pub fn held<'a>(_: &'a u8) {
    let _none: Option<Forever<'a>>;
}

pub struct Names<'a, 'b>(&'a str, &'b str);

impl<'a> Names<'a, 'a> {
    pub const MOST: usize = 3;
}

pub fn most<'a, 'b>(_: &'a str, _: &'b str) -> usize {
    Names::<'a, 'b>::MOST
}

pub union Word {
    whole: u32,
    half: u16,
}

// Two fields of a union share memory.
pub fn halves(mut word: Word) -> u16 {
    unsafe {
        let whole = &word.whole;
        let half = &mut word.half;
        *half = 1;
        *whole as u16
    }
}

pub fn halves_assigned(mut word: Word) -> u16 {
    unsafe {
        let whole = &word.whole;
        word.half = 1;
        *whole as u16
    }
}

fn call(_: impl FnOnce(&u32) -> &u32) {}

// What the closure's own body needs, `move` wouldn't mend.
pub fn own() {
    let own = 22;
    call(|_| &own)
}

// What a closure keeps of its own in a variable from outside.
pub fn kept() {
    let mut held = None;
    let mut keep = |number: u32| {
        let own = number + 1;
        held = Some(&own);
    };
    keep(1);
    let _ = &held;
}

// Parentheses, and a closure in a closure.
pub fn greet() -> String {
    let words: &Vec<&str>;
    words = (&vec!["hello"]);
    words.concat()
}

pub fn nested() {
    let mut later: Box<dyn FnMut()> = Box::new(|| {});
    {
        let own = String::from("own");
        later = Box::new(|| {
            let length = || own.len();
            length();
        });
    }
    later();
}

// Two errors at one place.
pub struct Counted<'a> {
    pub count: &'a mut isize,
}

fn again<'a>(from: &'a mut Counted<'_>) -> Counted<'a> {
    Counted { count: &mut *from.count }
}

pub fn plus(count: &mut isize) {
    let mut one = Counted { count };
    let two = again(&mut one);
    *one.count += 1;
    *two.count += 1;
}

pub fn two_moved(one: String, two: String) {
    let first = &one;
    let second = &two;
    let both = move || drop((one, two));
    println!("{first}{second}");
    both();
}

// What an `await` returns is named only where nothing else is.
fn keep<'a>(text: &'a str, _: &'a str) -> impl std::future::Future<Output = &'a str> {
    std::future::ready(text)
}

pub async fn awaited(text: String) -> &'static str {
    let held = &text;
    keep(held, held).await
}
