// the ways in which a loan is used later
pub trait Show {
    fn show(&self) -> usize;
}
impl Show for &u32 {
    fn show(&self) -> usize {
        1
    }
}
pub fn object(mut list: Vec<u32>) -> usize {
    let first = &list[0];
    let shown: Box<dyn Show + '_> = Box::new(
        first,
    );
    list.push(1);
    shown
        .show()
}
pub fn object_reference(mut list: Vec<u32>) -> usize {
    let first = &list[0];
    list.push(1);
    let shown: &dyn Show =
        &first;
    shown.show()
}
pub fn closure(mut list: Vec<u32>) -> u32 {
    let first = &list[0];
    list.push(1);
    let get = move || {
        let one = 1;
        *first + one
    };
    get()
}
pub fn closure_taken(mut list: Vec<u32>) -> usize {
    let get = || {
        list
            .len()
    };
    list.push(1);
    let other = get;
    other()
}
pub fn returned(list: &mut Vec<String>) -> Option<&String> {
    let first = list.first();
    list.push(String::new());
    if list.is_empty() {
        return None;
    }
    first
}
pub fn stored(mut list: Vec<String>) -> usize {
    let mut all: Vec<&String> =
        Vec::new();
    for at in 0..3 {
        all
            .push(&list[at]);
        list
            .push(String::new());
    }
    all.len()
}
pub fn matched(mut found: Option<String>) -> usize {
    let text = found
        .as_ref();
    found = None;
    match text {
        Some(text) => text
            .len(),
        None => 0,
    }
}
pub fn field(mut pair: (String, u32)) -> usize {
    struct Held<'a> {
        text: &'a String,
    }
    let held = Held {
        text: &pair.0,
    };
    pair.0
        .clear();
    let other = Held {
        ..held
    };
    other
        .text
        .len()
}
pub fn compared(mut list: Vec<u32>) -> bool {
    let first = &list[0];
    list.clear();
    first
        == &1
}
pub fn negated(mut list: Vec<i32>) -> i32 {
    let first = &list[0];
    list.clear();
    1
        + -*first
}
pub fn indexed(mut list: Vec<usize>) -> usize {
    let all = &list[..];
    list.clear();
    [1, 2, 3]
        [all[0]]
}
pub fn macro_used(mut list: Vec<usize>) -> String {
    let all = &list[..];
    list.clear();
    format!(
        "{} {:?}",
        1,
        all,
    )
}
