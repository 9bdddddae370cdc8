use std::marker::PhantomData;
pub trait Visitor<'v> {
    fn visit(&mut self, text: &'v str);
    fn walk(&mut self, texts: &'v [String]) {
        for text in texts {
            self.visit(text);
        }
        let own = String::new();
        self.visit(&own);
    }
}
pub struct Collect<'c> {
    all: Vec<&'c str>,
}
impl<'c> Visitor<'c> for Collect<'c> {
    fn visit(&mut self, text: &'c str) {
        self.all.push(text);
    }
}
pub fn collected(texts: Vec<String>) -> Vec<&'static str> {
    let mut collect = Collect { all: vec![] };
    collect.walk(&texts);
    collect.all
}
pub fn collected_in<'t>(texts: &'t [String], other: &[String]) -> Vec<&'t str> {
    let mut collect = Collect { all: vec![] };
    collect.walk(texts);
    collect.walk(other);
    collect.all
}
pub struct Arena<'a, T> {
    items: Vec<T>,
    marker: PhantomData<&'a T>,
}
impl<'a, T> Arena<'a, T> {
    pub fn add(&mut self, item: T) -> &'a T {
        self.items.push(item);
        self.items.last().unwrap()
    }
    pub fn add_in<'b>(&'b mut self, item: T) -> &'b T
    where
        'b: 'a,
    {
        self.items.push(item);
        let last: &'a T = self.items.last().unwrap();
        last
    }
    pub fn all(&'a self) -> impl Iterator<Item = &'a T> + 'a {
        self.items.iter()
    }
    pub fn two(&mut self, one: T, two: T) -> (&T, &T) {
        let one = self.add(one);
        let two = self.add(two);
        (one, two)
    }
}
pub fn arenas<'a, 'b>(one: &'a mut Arena<'b, String>, two: &'b mut Arena<'a, String>) {
    std::mem::swap(one, two);
}
pub fn arenas_kept<'a>(one: &mut Arena<'a, &'a str>, text: &str) {
    one.items.push(text);
}
pub fn both<'a, 'b: 'a, F>(text: &'b str, f: F) -> &'a str
where
    F: FnOnce(&'a str) -> &'b str,
{
    let own = String::from(text);
    let one = f(text);
    let two = f_of(&own, one);
    two
}
fn f_of<'x>(one: &'x str, two: &'x str) -> &'x str {
    if one.len() > 1 {
        one
    } else {
        two
    }
}
