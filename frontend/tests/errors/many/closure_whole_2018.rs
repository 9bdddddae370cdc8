// edition: 2018
// before edition 2021 a closure takes the whole variable
pub struct Pair {
    one: String,
    other: String,
}
pub fn apart(mut pair: Pair) {
    let mut add = || pair.one.push('a');
    pair.other.push('b');
    add();
}
pub fn moved(pair: Pair) -> usize {
    let take = || {
        let own = pair.one;
        own.len()
    };
    take() + pair.other.len()
}
pub fn of_self(pair: &mut Pair) -> usize {
    let size = || pair.one.len();
    pair.other.clear();
    size()
}
