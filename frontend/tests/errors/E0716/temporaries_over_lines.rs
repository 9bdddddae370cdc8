// temporaries that die in the middle of an expression over several lines
use std::cell::RefCell;
pub fn chain(cell: &RefCell<Vec<String>>) -> usize {
    let text = cell
        .borrow()
        .first()
        .map(|text| text.as_str())
        .unwrap_or("");
    text.len()
}
pub fn built() -> usize {
    let list = vec![String::new()]
        .iter()
        .map(|text| text.as_str())
        .collect::<Vec<_>>()
        .iter()
        .map(|text| text.len());
    list
        .sum()
}
pub fn argument(mut texts: Vec<&str>) {
    texts.push(
        String::from("a")
            .as_str(),
    );
    texts.push(
        &format!("{}", 1),
    );
    for text in texts {
        println!("{text}");
    }
}
pub fn structure() -> usize {
    struct Held<'a> {
        text: &'a str,
        list: &'a [u32],
    }
    let held = Held {
        text: String::new()
            .trim(),
        list: &vec![1]
            .as_slice()[1..],
    };
    held.text.len() + held.list.len()
}
pub fn matched() -> usize {
    let text = match std::env::args()
        .next()
    {
        Some(text) => text
            .as_str()
            .trim(),
        None => "",
    };
    text.len()
}
pub fn block() -> usize {
    let text = {
        let own = String::new();
        own
            .trim()
    };
    text.len()
}
pub fn condition(list: &[String]) -> usize {
    let text = if list.is_empty() {
        String::from("a")
            .as_str()
    } else {
        &list[0]
    };
    text.len()
}
pub fn looped() -> usize {
    let mut text = "";
    while text.is_empty() {
        text = String::from("a")
            .trim();
    }
    text.len()
}
