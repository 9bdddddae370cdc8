//! Each function has one mistake at least: what is borrowed doesn't live long enough.

use std::cell::RefCell;
use std::collections::HashMap;

fn show<T>(_: T) {}

pub fn block() {
    let view;
    {
        let number = 1;
        view = &number;
    }
    show(view);
}

pub fn turn_of_a_loop() {
    let mut kept: Vec<&String> = Vec::new();
    for number in 0..3 {
        let word = number.to_string();
        kept.push(&word);
    }
    show(kept);
}

pub fn arm_of_a_match(number: u8) {
    let mut text = "none";
    match number {
        0 => {
            let owned = String::from("zero");
            text = &owned;
        }
        _ => {}
    }
    show(text);
}

pub fn forever() {
    let number = 1;
    let view: &'static u32 = &number;
    show(view);
}

pub fn thread_like() {
    fn needs_static(_: impl Fn() -> usize + 'static) {}
    let text = String::from("a");
    needs_static(|| text.len());
}

pub fn kept_by_a_drop() {
    struct Guard<'g>(&'g u32);
    impl Drop for Guard<'_> {
        fn drop(&mut self) {
            show(self.0);
        }
    }
    let guard;
    let number = 1;
    guard = Guard(&number);
    show(&guard.0);
}

pub fn into_an_argument<'a>(list: &mut Vec<&'a u32>) {
    let number = 1;
    list.push(&number);
}

pub fn in_a_map<'a>(map: &mut HashMap<&'a str, u32>) {
    let key = String::from("a");
    map.insert(&key, 1);
}

pub fn closure_keeps() {
    let tell;
    {
        let number = 1;
        tell = || number + 1;
    }
    show(tell());
}

pub fn cell() -> usize {
    let cell = RefCell::new(vec![1]);
    cell.borrow().len()
}

pub fn cell_at_the_end() -> usize {
    let count;
    {
        let inner = RefCell::new(vec![1]);
        count = inner.borrow();
    }
    count.len()
}

pub fn if_let(slot: Option<String>) {
    let view: &str;
    if let Some(text) = slot {
        view = &text;
    } else {
        view = "none";
    }
    show(view);
}

pub fn local() -> &'static u32 {
    let number = 1;
    &number
}

pub fn local_text<'a>() -> &'a str {
    let text = String::from("a");
    text.as_str()
}

pub fn parameter<'a>(text: String) -> &'a str {
    &text
}

pub fn local_in_a_struct<'a>() -> Holder<'a> {
    let list = vec![1];
    Holder { list: &list }
}

pub struct Holder<'h> {
    pub list: &'h [u32],
}

pub fn early(number: &u32) -> &u32 {
    let own = *number + 1;
    if own > 3 {
        return &own;
    }
    number
}

pub fn by_a_variable<'a>() -> &'a u32 {
    let number = 1;
    let view = &number;
    view
}

pub fn iterator() -> impl Iterator<Item = &'static u32> {
    let list = vec![1, 2];
    list.iter()
}

pub fn closure<'a>() -> impl Fn() -> usize + 'a {
    let text = String::from("a");
    || text.len()
}

pub fn boxed_closure(number: u32) -> Box<dyn Fn() -> u32> {
    Box::new(|| number + 1)
}

pub fn temporary_value<'a>() -> &'a str {
    String::from("a").as_str()
}

pub fn slice<'a>() -> &'a [u32] {
    &vec![1, 2][..]
}

pub fn in_a_tuple<'a>(text: &'a str) -> (&'a str, &'a str) {
    let other = text.to_uppercase();
    (text, &other)
}

pub fn some<'a>() -> Option<&'a String> {
    let text = String::new();
    Some(&text)
}

pub fn matched<'a>(text: &'a str) -> &'a str {
    match text.len() {
        0 => text,
        _ => &text.to_lowercase(),
    }
}

pub fn temporary() {
    let view = String::from("a").as_str();
    show(view);
}

pub fn temporary_of_a_chain() {
    let words = String::from("a b").split(' ');
    show(words.count());
}

pub fn temporary_in_a_call<'a>(list: &mut Vec<&'a String>) {
    list.push(&String::from("a"));
}

pub fn temporary_in_a_vector() {
    let mut list: Vec<&String> = Vec::new();
    list.push(&String::from("a"));
    show(list);
}

pub fn temporary_assigned() {
    let mut view = &String::new();
    show(view);
    view = &String::from("b");
    show(view);
}

pub fn temporary_in_a_match() {
    let text = match String::from(" a ").trim() {
        "" => "none",
        other => other,
    };
    show(text);
}

pub fn temporary_forever() {
    let view: &'static String = &String::new();
    show(view);
}

pub fn temporary_guard() {
    let list = RefCell::new(vec![1]);
    let first = list.borrow().first();
    show(first);
}

pub fn drop_of_a_reference<'a>(mut owner: Owner<'a>) -> &'a mut u32 {
    &mut *owner.number
}

pub struct Owner<'o> {
    number: &'o mut u32,
}

impl Drop for Owner<'_> {
    fn drop(&mut self) {
        *self.number += 1;
    }
}

pub fn inner_closure() {
    let mut kept: Vec<&u32> = Vec::new();
    let mut add = |number: u32| {
        show(kept.len());
        show(number);
    };
    add(3);
    {
        let four = 4;
        kept.push(&four);
    }
    show(kept);
}

pub struct Both<'o> {
    owner: Owner<'o>,
    name: String,
}

pub fn destructor_of_a_field<'a>(both: Both<'a>) -> &'a mut u32 {
    &mut *both.owner.number
}

pub fn destructor_behind_a_box<'a>(owner: Box<Owner<'a>>) -> &'a mut u32 {
    &mut *owner.number
}

pub fn no_destructor_of_the_field(both: Both) -> &'static String {
    &both.name
}

pub struct Named {
    name: String,
}

impl Drop for Named {
    fn drop(&mut self) {
        show(&self.name);
    }
}

pub fn destructor_of_what_is_owned() {
    let kept;
    {
        let named = Named { name: String::new() };
        kept = &named.name;
    }
    show(kept);
}

pub fn destructor_does_not_look_at_the_whole() {
    let kept;
    {
        let named = Named { name: String::new() };
        kept = &named;
    }
    show(&kept.name);
}

pub fn destructor_against_a_closure(named: Named) -> Box<dyn Fn() -> usize> {
    Box::new(|| named.name.len())
}

pub fn borrowed_inside_a_closure() {
    let mut call: Box<dyn Fn() -> usize> = Box::new(|| 0);
    {
        let text = String::new();
        call = Box::new(|| {
            let kept = &text;
            kept.len()
        });
    }
    call();
}

pub fn iterator_by_its_result() -> impl Iterator<Item = char> {
    let text = String::new();
    text.chars()
}
