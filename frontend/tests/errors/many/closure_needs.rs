// what closures need of the functions around them
pub fn pick<'a, 'b>(one: &'a str, other: &'b str) -> &'a str {
    let work = |flag: bool| if flag { one } else { other };
    work(true)
}
pub fn deep<'a, 'b>(one: &'a str, other: &'b str) -> &'a str {
    let outer = |flag: bool| {
        let inner = || if flag { one } else { other };
        inner()
    };
    outer(true)
}
pub fn forever(text: &str) {
    let work = || held(text);
    work();
}
fn held(_: &'static str) {}
pub fn stores<'a, 'b>(list: &mut Vec<&'a str>, text: &'b str) {
    let mut add = || list.push(text);
    add();
}
pub fn stores_argument<'a>(list: &mut Vec<&'a str>) {
    let mut add = |text: &str| list.push(text);
    add("a");
}
pub fn gives<'a>(slot: &'a mut Option<String>) -> impl FnMut() -> Option<&'a mut String> {
    move || slot.as_mut()
}
pub fn each<'a>(texts: &[&'a str], out: &mut Vec<&'static str>) {
    texts.iter().for_each(|text| out.push(text));
}
