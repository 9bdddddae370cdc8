pub trait Lend {
    type Item<'n>
    where
        Self: 'n;
    fn next<'n>(&'n mut self) -> Option<Self::Item<'n>>;
}
pub struct W {
    v: Vec<u32>,
    at: usize,
}
impl Lend for W {
    type Item<'n> = &'n mut [u32];
    fn next<'n>(&'n mut self) -> Option<&'n mut [u32]> {
        self.at += 1;
        self.v.get_mut(self.at..)
    }
}
pub fn two<L: Lend>(mut l: L) {
    let a = l.next();
    let b = l.next();
    drop(a);
    drop(b);
}
pub fn both(w: &mut W) {
    let a = w.next();
    let b = w.next();
    drop((a, b));
}
pub fn collect<'a, L: Lend>(
    l: &'a mut L,
) -> Vec<L::Item<'a>> {
    let mut v = Vec::new();
    while let Some(x) = l.next() {
        v.push(x);
    }
    v
}
pub fn first<'a, L: Lend>(
    l: &'a mut L,
) -> Option<L::Item<'a>> {
    if let Some(x) = l.next() {
        return Some(x);
    }
    l.next()
}
pub fn local<L: Lend + Default>() -> Option<L::Item<'static>>
where
    L: 'static,
{
    let mut l = L::default();
    l.next()
}
pub trait View {
    type Of<'a, T: 'a + ?Sized>: Copy
    where
        Self: 'a;
    fn view<'a, T: ?Sized>(
        &'a self,
        t: &'a T,
    ) -> Self::Of<'a, T>;
}
pub fn mix<'a, 'b, V: View>(
    v: &'a V,
    t: &'b str,
) -> V::Of<'a, str> {
    v.view(t)
}
pub fn moved<V: View>(v: V) -> V {
    let x = v.view("a");
    let w = v;
    drop(x);
    w
}
