//! Three functions for `./nllc.sh rust` (docs/FROM-RUST.md). rustc refuses the second and the third.

fn show(_: &str) {}

/// A new value comes into `text`, and what it held before isn't borrowed any longer.
pub fn news(mut draft: String, done: bool) -> String {
    let last = String::from("the end");
    let mut text = &draft;
    show(text);
    if done {
        text = &last;
        draft.clear();
    }
    show(text);
    draft
}

/// One lifetime is returned as another.
pub fn longer<'a, 'b>(first: &'a str, second: &'b str) -> &'a str {
    let mut best = first;
    if second.len() > best.len() {
        best = second;
    }
    best
}

/// What came in is gone before anything goes out. rustc refuses this function, and `nllc` doesn't.
pub fn fixed<'a>(name: &'a str) -> &'static str {
    let mut text = name;
    show(text);
    text = "nobody";
    text
}
