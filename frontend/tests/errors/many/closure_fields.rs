// a closure takes fields, and what is behind a box or a reference
pub struct Deep {
    name: String,
    inner: Inner,
    link: Box<Inner>,
}
pub struct Inner {
    list: Vec<u32>,
    count: u32,
}
pub fn apart(mut deep: Deep) -> usize {
    let mut add = || deep.inner.list.push(1);
    deep.name.push('a');
    deep.inner.count += 1;
    add();
    deep.inner.list.len()
}
pub fn same(mut deep: Deep) {
    let mut add = || deep.inner.list.push(1);
    deep.inner.list.clear();
    add();
}
pub fn boxed(mut deep: Deep) {
    let mut add = || deep.link.list.push(1);
    deep.link.count += 1;
    add();
    let mut add = || deep.link.list.push(1);
    let whole = &deep.link;
    add();
    println!("{}", whole.count);
}
pub fn moved(deep: Deep) -> usize {
    let own = move || deep.inner.list.len();
    let size = deep.name.len();
    size + own() + deep.inner.list.len()
}
pub fn of_reference(deep: &mut Deep) {
    let mut add = || deep.inner.list.push(1);
    deep.inner.count = 1;
    deep.inner.list[0] = 1;
    add();
}
