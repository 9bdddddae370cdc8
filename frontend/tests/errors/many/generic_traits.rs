// what a trait's lifetimes and bounds hold
pub trait Source<'a> {
    type Out;
    fn get(&'a mut self) -> Self::Out;
}
pub trait Lend {
    type Out<'a>
    where
        Self: 'a;
    fn lend<'a>(&'a mut self) -> Self::Out<'a>;
}
pub trait Show {
    fn show(&self) -> &str;
}
pub fn twice<'a, S: Source<'a>>(source: &'a mut S) -> (S::Out, S::Out) {
    (source.get(), source.get())
}
pub fn ranked<S>(source: &mut S)
where
    S: for<'a> Source<'a>,
{
    source.get();
    source.get();
}
pub fn local<S>(mut source: S)
where
    S: for<'a> Source<'a>,
{
    let one = source.get();
    let two = source.get();
    drop((one, two));
}
pub fn lent<L: Lend>(mut lend: L) {
    let one = lend.lend();
    lend.lend();
    drop(one);
}
pub fn lent_out<'a, L: Lend>(lend: &'a mut L) -> L::Out<'a> {
    lend.lend();
    lend.lend()
}
pub fn shown<T: Show>(one: T) -> &'static str {
    one.show()
}
pub fn shown_object(one: &mut dyn Show) -> usize {
    let text = one.show();
    take(one);
    text.len()
}
fn take(_: &mut dyn Show) {}
pub fn boxed<T: Show + 'static>(one: T) -> Box<dyn Show> {
    Box::new(one)
}
pub fn boxed_short<T: Show>(one: T) -> Box<dyn Show> {
    Box::new(one)
}
pub fn of_slice<'a, T: Show>(list: &'a [T], out: &mut Vec<&'a dyn Show>) {
    out.extend(list.iter().map(|one| one as &dyn Show));
}
pub fn of_short<'a, 'b, T: Show>(list: &'b [T], out: &mut Vec<&'a dyn Show>) {
    for one in list {
        out.push(one);
    }
}
pub struct Wrap<T>(T);
impl<'a, T: Show> Source<'a> for Wrap<T> {
    type Out = &'a str;
    fn get(&'a mut self) -> &'a str {
        self.0.show()
    }
}
impl<T: Show> Lend for Wrap<T> {
    type Out<'a>
        = &'a mut T
    where
        T: 'a;
    fn lend<'a>(&'a mut self) -> &'a mut T {
        &mut self.0
    }
}
pub fn wraps<T: Show>(mut wrap: Wrap<T>) -> usize {
    let text = wrap.get();
    let one = wrap.lend();
    let _ = one;
    text.len()
}
pub fn clones<T: Clone + Show>(one: &T) -> T {
    let other = one.clone();
    let text = other.show();
    drop(other);
    let _ = text;
    one.clone()
}
