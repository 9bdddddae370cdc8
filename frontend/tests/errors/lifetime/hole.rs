// what a name holds before it is given another value; rustc holds it everywhere
fn show(_: &str) {}
pub fn fixed<'a>(name: &'a str) -> &'static str {
    let mut text = name;
    show(text);
    text = "nobody";
    text
}
