pub fn listed<'a>(first: &'a str, second: &str) -> Vec<&'a str> {
    vec![first, second]
}

pub fn named<'a, 'b>(first: &'a str, second: &'b str) -> Vec<&'a str> {
    let list = vec![first, second];
    list
}

pub fn pushed<'a, 'b>(list: &mut Vec<Vec<&'a str>>, second: &'b str) {
    list.push(
        vec![second],
    );
}

pub fn printed<'a>(first: &'a str, second: &str) -> Option<&'a str> {
    assert!(!first.is_empty());
    matches!(first.len(), 1).then(|| second)
}
