// loans that go around loops
pub struct Node {
    value: u32,
    next: Option<Box<Node>>,
}
pub fn last(mut node: &mut Node) -> &mut Node {
    while let Some(ref mut next) = node.next {
        node = next;
    }
    node
}
pub fn last_by_method(mut node: &mut Node) -> &mut Node {
    while let Some(next) = node.next.as_mut() {
        node = next;
    }
    node
}
pub fn last_by_question(node: &mut Node) -> Option<&mut Node> {
    let mut at = node;
    loop {
        at = at.next.as_mut()?;
        if at.value == 3 {
            return Some(at);
        }
    }
}
pub fn collected(list: &mut Vec<String>) -> Vec<&mut String> {
    let mut out = Vec::new();
    for at in 0..list.len() {
        out.push(&mut list[at]);
    }
    out
}
pub fn flag_dependent(list: &mut Vec<u32>, flags: &[bool]) {
    let mut other = vec![1];
    let mut kept = &mut other;
    for flag in flags {
        if *flag {
            list.push(kept[0]);
        } else {
            kept = list;
        }
    }
    kept.push(1);
}
pub fn condition(mut list: Vec<u32>) {
    let mut one = &list;
    let other = vec![1];
    while one.len() > list.len() {
        list.push(1);
        one = &other;
    }
}
pub fn in_condition(list: &mut Vec<u32>) {
    while {
        let first = &mut list[0];
        *first += 1;
        *first < 3
    } {
        list.push(1);
    }
}
pub fn retained(list: &mut Vec<String>) -> Option<&String> {
    for one in list.iter() {
        if one.is_empty() {
            return Some(one);
        }
        list.clear();
    }
    None
}
pub fn swapped<'a>(mut one: &'a mut u32, mut other: &'a mut u32) {
    for _ in 0..3 {
        let view = &*one;
        std::mem::swap(&mut one, &mut other);
        *one += *view;
    }
}
