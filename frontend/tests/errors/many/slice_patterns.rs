// patterns of arrays and slices
pub fn apart(list: &mut [u32; 4]) {
    let [one, other, ..] = list;
    std::mem::swap(one, other);
}
pub fn same(list: &mut [String]) {
    if let [first, ..] = list {
        if let [.., last] = list {
            first.push('a');
            last.push('b');
        }
        first.push('c');
    }
}
pub fn indexed(mut list: [String; 3]) {
    let first = &mut list[0];
    let second = &mut list[1];
    first.push_str(second);
}
pub fn pattern_and_index(mut list: [String; 3]) {
    let [ref mut first, ..] = list;
    list[1].push('a');
    first.push('b');
}
pub fn ends(list: &mut [String]) {
    if let [first, .., last] = list {
        first.push_str(last);
        let [_, middle @ .., _] = list else { return };
        middle[0].clear();
        last.clear();
    }
}
pub fn taken(list: [String; 3]) -> usize {
    let [one, _, three] = list;
    let [_, two, _] = list;
    let all = list;
    one.len() + two.len() + three.len() + all.len()
}
pub fn rest(list: [String; 3]) -> usize {
    let [first, rest @ ..] = list;
    let [again, ..] = list;
    first.len() + rest.len() + again.len()
}
