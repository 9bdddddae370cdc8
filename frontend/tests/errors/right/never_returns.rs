// ways that don't come back
pub fn never(list: &mut Vec<u32>) -> &mut u32 {
    let found = match list.first_mut() {
        Some(first) => first,
        None => panic!("empty"),
    };
    *found += 1;
    found
}
