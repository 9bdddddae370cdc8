//! A function for each form that a MIR text has of what rustc dumps (test_mir_texts.py).

pub struct Pair<'a, 'b> {
    first: &'a str,
    second: &'b mut Vec<&'a str>,
}

pub enum Shape<'a> {
    Empty,
    Named(&'a str, u32),
    Both { left: &'a str, right: &'a str },
}

pub struct Node<'a> {
    value: &'a str,
    next: Option<Box<Node<'a>>>,
}

pub struct Loud<'a>(pub &'a str);

impl Drop for Loud<'_> {
    fn drop(&mut self) {
        println!("{}", self.0);
    }
}

pub static GREETING: &str = "hello";
pub const WORDS: [&str; 2] = ["a", "b"];

pub fn reborrow<'a, 'b>(p: &'a mut &'b mut u32) -> &'a mut u32 {
    &mut **p
}

pub fn fields<'a>(pair: &mut Pair<'a, '_>) -> &'a str {
    pair.second.push(pair.first);
    pair.first
}

pub fn make_pair<'a, 'b>(first: &'a str, second: &'b mut Vec<&'a str>) -> Pair<'a, 'b> {
    Pair { first, second }
}

pub fn variants<'a>(shape: Shape<'a>) -> &'a str {
    match shape {
        Shape::Empty => "",
        Shape::Named(name, _) => name,
        Shape::Both { left, right } => if left.len() > 1 { left } else { right },
    }
}

pub fn named(name: &str) -> Shape<'_> {
    Shape::Named(name, 1)
}

pub fn last<'n, 'a>(mut node: &'n mut Node<'a>) -> &'n mut Node<'a> {
    while node.next.is_some() {
        node = node.next.as_mut().unwrap();
    }
    node
}

pub fn dropped(text: &str) -> usize {
    let loud = Loud(text);
    let all = vec![text];
    loud.0.len() + all.len()
}

pub fn maybe_dropped(text: &str, give: bool) {
    let loud = Loud(text);
    if give {
        std::mem::forget(loud);
    }
}

pub fn first_of<'a>(words: &[&'a str], number: usize) -> Option<&'a str> {
    let word = words[number];
    match words {
        [first, ..] if first.len() > 1 => Some(first),
        _ => Some(word),
    }
}

pub fn tuple<'a>(left: &'a str, right: u32) -> (&'a str, u32, [&'a str; 2]) {
    (left, right, [left, "x"])
}

pub fn captures<'a>(text: &'a str, all: &mut Vec<&'a str>) {
    let mut add = |more: u32| if more > 0 { all.push(text) };
    add(1);
}

pub fn iterated<'a>(words: &'a [String], least: usize) -> Vec<&'a str> {
    words.iter().map(|word| word.as_str()).filter(|word| word.len() > least).collect()
}

pub fn pointers<'a>(text: &'a mut &'a str, number: *const &'a str) -> &'a str {
    let raw = &raw mut *text;
    unsafe { if *raw == *number { *raw } else { *number } }
}

pub fn object<'a>(text: &'a String) -> Box<dyn Fn() -> usize + 'a> {
    Box::new(move || text.len())
}

pub fn function(of: fn(&str) -> &str, text: &str) -> &str {
    of(text)
}

pub fn constants() -> (&'static str, &'static str, Option<&'static str>) {
    (GREETING, WORDS[1], None)
}

pub fn annotated<'a>(text: &'a str) -> usize {
    let kept: &'a str = text;
    let all: Vec<&'a str> = Vec::<&'a str>::new();
    kept.len() + all.len()
}

pub fn sums(numbers: &[u32]) -> u32 {
    let mut sum = 0;
    for number in numbers {
        sum += number * 2;
    }
    sum
}

pub fn replaced<'a>(loud: &mut Loud<'a>, text: &'a str) {
    *loud = Loud(text);
}

pub fn boxed<'a>(mut place: Box<(&'a str, u32)>) -> &'a str {
    place.1 += 1;
    let inside = *place;
    inside.0
}

pub fn known<'a: 'b, 'b>(long: &'a str, _short: &'b str) -> &'b str {
    long
}

pub fn wrong<'a, 'b>(first: &'a str, _second: &'b str) -> &'b str {
    first
}

pub fn never(text: &str) -> ! {
    panic!("{text}")
}

pub fn opaque<'a>(words: &'a [String]) -> impl Iterator<Item = &'a str> + 'a {
    words.iter().map(|word| word.as_str())
}

pub async fn waits(text: &str) -> usize {
    std::future::ready(text.len()).await
}

pub fn statics<'a>(text: &'a str) -> impl Sized + 'static + use<'a> {
    text.len()
}

pub fn uses_statics(mut text: String) -> usize {
    let kept = statics(&text);
    text.push('x');
    drop(kept);
    text.len()
}

pub fn hidden<'a>(text: &'a str, is_first: bool) -> impl Sized + use<'a> {
    if is_first {
        drop(hidden(text, false));
    }
    (text, is_first)
}

pub fn wrapped<'a>(number: Option<u32>, _error: &'a str) -> Option<Result<u32, &'a str>> {
    number.map(Ok)
}

pub enum Maybe<T> {
    Done(T),
    Gone,
}

impl<T> Maybe<T> {
    pub fn taken(&mut self) -> bool {
        match &*self {
            Self::Done(_) => {}
            Self::Gone => return false,
        }
        *self = Self::Gone;
        true
    }
}

impl<'a> Iterator for Loud<'a> {
    type Item = &'a str;

    fn next(&mut self) -> Option<&'a str> {
        struct Kept<'k>(&'k str);
        let kept = Kept(self.0);
        Some(kept.0)
    }
}

pub struct Holder {
    pub kept: Option<&'static str>,
}

pub fn holder(word: &'static str) -> Holder {
    Holder { kept: Some(word) }
}

pub enum Cause {
    Said(&'static str),
    Other(u32),
}

pub struct Causes {
    all: Vec<Cause>,
}

pub fn causes(of: &Causes) -> usize {
    match of.all.first() {
        Some(Cause::Said(text)) => text.len(),
        _ => 0,
    }
}

pub fn all_causes(of: &Causes) -> &[Cause] {
    &of.all
}

pub fn hidden_word<F: Fn() -> usize>(word: &'static str, more: F) -> impl Fn() -> usize {
    move || word.len() + more()
}

pub struct Asks<'a> {
    of: fn(&'a str) -> usize,
}

pub fn length(text: &str) -> usize {
    text.len()
}

pub fn asks<'a>() -> Asks<'a> {
    Asks { of: length }
}

pub fn asked<'long: 'short, 'short>(asks: Asks<'long>, text: &'long str) -> (Asks<'long>, usize) {
    let shorter: &'short str = text;
    let number = shorter.len() + (asks.of)(text);
    (asks, number)
}

pub fn narrowed<'long: 'short, 'short>(asks: Asks<'short>) -> Asks<'long> {
    asks
}

pub fn casts<'a>(words: &'a [&'a str; 2], number: u32) -> (&'a [&'a str], u64, fn(u32) -> u32, *const u8) {
    let add: fn(u32) -> u32 = |more| more + 1;
    let at: *const u32 = &number;
    (words, number as u64, add, at as *const u8)
}

pub fn named_function<'a>(text: &'a str) -> &'a str {
    let of: fn(&'a str) -> &'a str = known_length::<'a>;
    of(text)
}

pub fn known_length<'a>(text: &'a str) -> &'a str where 'a: 'a {
    text
}

pub fn repeated<'a>(word: &'a str) -> [&'a str; 3] {
    [word; 3]
}

pub fn rest_of<'s, 'a>(words: &'s mut [&'a str]) -> Option<(&'s mut &'a str, &'s mut [&'a str])> {
    match words {
        [first, rest @ ..] => Some((first, rest)),
        [] => None,
    }
}

pub union Either<'a> {
    number: u64,
    text: &'a str,
}

pub fn of_union<'a>(either: Either<'a>, is_text: bool) -> &'a str {
    if is_text { unsafe { either.text } } else { "" }
}

pub fn two_phases<'a>(words: &mut Vec<&'a str>, all: &[&'a str]) {
    words.push(all[words.len()]);
}

pub fn for_all<F: for<'x> Fn(&'x str, &str) -> &'x str>(choose: F, left: &str) -> usize {
    let right = String::from("right");
    choose(left, &right).len()
}

pub fn item_of<I: Iterator>(mut items: I) -> Option<I::Item> {
    items.next()
}

pub fn counted<'a, const N: usize>(words: [&'a str; N]) -> &'a str {
    words[N - 1]
}

pub fn by_object(of: &dyn Fn(&str) -> usize, text: &str) -> usize {
    of(text)
}

pub fn changed<'a>(shape: &mut Shape<'a>, text: &'a str) -> u32 {
    match shape {
        Shape::Named(name, count) => {
            *name = text;
            *count += 1;
            *count / (text.len() as u32)
        }
        Shape::Empty => 0,
        other => {
            *other = Shape::Both { left: text, right: text };
            1 << 2
        }
    }
}

pub fn nested<'a>(text: &'a str) -> impl FnOnce() -> Box<dyn FnOnce() -> &'a str + 'a> {
    move || Box::new(move || text)
}

thread_local! {
    static WORD: std::cell::Cell<&'static str> = const { std::cell::Cell::new("word") };
}

pub fn of_thread(word: &'static str) -> &'static str {
    WORD.with(|kept| kept.replace(word))
}

pub fn enough<'a>(words: &'a [String], least: usize) -> Result<impl Iterator<Item = &'a str>, usize> {
    if words.len() < least {
        return Err(words.len());
    }
    Ok(words.iter().map(|word| word.as_str()))
}

pub fn with_length<'a>(text: &'a str) -> (impl Fn() -> &'a str, usize) {
    (move || text, text.len())
}

pub fn two_parts<'a>(pair: (&'a str, &'a str, u32)) -> impl FnOnce() -> usize + use<'a> {
    move || pair.0.len() + pair.1.len()
}

pub fn kept_by_a_closure<'a>(text: &'a str) -> Option<&'a str> {
    let mut kept = None;
    let mut keep = || kept = Some(text);
    keep();
    kept
}
