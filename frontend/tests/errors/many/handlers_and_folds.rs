pub struct Button<'b> {
    handlers: Vec<Box<dyn FnMut(&str) + 'b>>,
}
impl<'b> Button<'b> {
    pub fn on(&mut self, handler: impl FnMut(&str) + 'b) -> &mut Self {
        self.handlers.push(Box::new(handler));
        self
    }
    pub fn on_any(&mut self, handler: impl FnMut(&str)) {
        self.handlers.push(Box::new(handler));
    }
    pub fn click(&mut self) {
        for handler in &mut self.handlers {
            handler("a");
            self.handlers.len();
        }
    }
}
pub fn counted() -> usize {
    let mut count = 0;
    let mut button = Button { handlers: vec![] };
    button
        .on(|_| count += 1)
        .on(|_| count += 2);
    button.click();
    count
}
pub fn counted_then_clicked() -> usize {
    let mut count = 0;
    let mut button = Button { handlers: vec![] };
    button.on(|_| count += 1);
    let now = count;
    button.click();
    now
}
pub fn kept<'a>() -> Button<'a> {
    let mut names = vec![];
    let mut button = Button { handlers: vec![] };
    button.on(|name| names.push(name.to_string()));
    button
}
pub fn names_kept() -> usize {
    let mut names: Vec<&str> = vec![];
    let mut button = Button { handlers: vec![] };
    button.on(|name| names.push(name));
    drop(button);
    names.len()
}
pub fn too_late() {
    let mut button = Button { handlers: vec![] };
    let mut names = vec![];
    button.on(|name| names.push(name.to_string()));
    button.click();
}
pub fn apply<F, R>(f: F) -> R
where
    F: FnOnce() -> R,
{
    f()
}
pub fn results() -> usize {
    let text = String::from("a");
    let part = apply(|| &text[..]);
    let other = apply(|| {
        let own = text.clone();
        own.as_str()
    });
    drop(text);
    part.len() + other.len()
}
pub fn swap_in<T>(slot: &mut T, f: impl FnOnce(T) -> T) {
    let old = *slot;
    *slot = f(old);
}
pub fn fold(list: &[String]) -> Option<&String> {
    list.iter().fold(None, |best: Option<&String>, one| match best {
        Some(best) if best.len() > one.len() => Some(best),
        _ => Some(one),
    })
}
pub fn fold_two<'a, 'b>(list: &'a [String], other: &'b [String]) -> Option<&'a String> {
    list.iter()
        .zip(other)
        .fold(None, |best, (one, two)| match best {
            Some(best) => Some(best),
            None if one.len() > two.len() => Some(one),
            None => Some(two),
        })
}
pub fn sorted(mut list: Vec<String>, keys: &mut Vec<usize>) -> Vec<String> {
    list.sort_by_key(|one| {
        keys.push(one.len());
        one
    });
    list.sort_by(|one, two| {
        keys.push(list.len());
        one.cmp(two)
    });
    list
}
