pub trait Get {
    fn get(&self) -> u32;
}
pub trait Ref<'a> {
    fn r(&self) -> &'a str;
}
impl<'a> Ref<'a> for &'a str {
    fn r(&self) -> &'a str {
        self
    }
}
pub fn own_for_less<'a>(x: &'a str) -> Box<dyn Ref<'static> + 'a> {
    Box::new(x)
}
pub fn dropped_behind<'a>(x: Box<dyn Ref<'a> + 'a>) -> &'a str {
    let s = x.r();
    drop(x);
    s
}
pub fn forever<'a>(x: Box<dyn Ref<'a>>) -> &'static str {
    x.r()
}
pub fn of_a_local(
    x: Box<dyn for<'x> Fn(&'x str) -> &'x str>,
) -> &'static str {
    let s = String::new();
    x(&s)
}
pub fn boxed(x: &dyn Get) -> Box<dyn Get + '_> {
    Box::new(W(x))
}
pub fn boxed_forever(x: &dyn Get) -> Box<dyn Get> {
    Box::new(W(x))
}
pub struct W<'w>(&'w dyn Get);
impl Get for W<'_> {
    fn get(&self) -> u32 {
        self.0.get()
    }
}
pub fn pushed<'a>(v: &mut Vec<W<'a>>, x: &dyn Get) {
    v.push(W(x));
}
pub fn pushed_local<'a>(
    v: &mut Vec<W<'a>>,
    x: &'a (dyn Get + 'static),
) {
    v.push(W(x));
    let y = 1u32;
    v.push(W(&y));
}
impl Get for u32 {
    fn get(&self) -> u32 {
        *self
    }
}
pub fn pushed_object(
    x: &mut Vec<Box<dyn Get + 'static>>,
    y: Box<dyn Get + '_>,
) {
    x.push(y);
}
pub fn twice<'a>(
    x: &'a mut (dyn Iterator<Item = &'a str> + 'a),
) -> Option<&'a str> {
    let a = x.next();
    let b = x.next();
    a.or(b)
}
pub fn mapped<'a>(
    x: &'a mut dyn Iterator<Item = String>,
) -> impl Iterator<Item = String> + 'static {
    x.map(|s| s + "a")
}
