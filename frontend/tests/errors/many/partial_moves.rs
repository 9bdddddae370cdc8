// parts are moved, given back and used
pub struct Pair {
    one: String,
    other: Option<Box<Pair>>,
}
pub fn whole(pair: Pair) -> usize {
    let own = pair.one;
    own.len() + size(&pair)
}
fn size(pair: &Pair) -> usize {
    pair.one.len()
}
pub fn back(mut pair: Pair) -> usize {
    let own = pair.one;
    pair.one = own;
    size(&pair)
}
pub fn half_back(mut pair: Pair) -> usize {
    drop(pair);
    pair.one = String::new();
    1
}
pub fn pattern(pair: Pair) -> usize {
    let Pair { one, .. } = pair;
    one.len() + pair.other.map_or(0, |_| 1) + pair.one.len()
}
pub fn inner(pair: Pair) -> usize {
    if let Some(next) = pair.other {
        return next.one.len() + pair.other.is_some() as usize;
    }
    pair.one.len()
}
pub fn behind(pair: &mut Pair) -> String {
    pair.one
}
pub fn out_of_box(pair: Box<Pair>) -> (String, Box<Pair>) {
    (pair.one, pair)
}
pub fn closure(pair: Pair) -> usize {
    let take = || drop(pair.one);
    take();
    pair.other.is_some() as usize + pair.one.len()
}
pub fn two_ways(pair: Pair, flag: bool) -> Pair {
    if flag {
        drop(pair.one)
    }
    pair
}
pub fn in_turns(pair: Pair) {
    loop {
        match pair.other {
            Some(next) => drop(next),
            None => return,
        }
    }
}
pub fn borrowed_part(pair: Pair) -> usize {
    let view = &pair.one;
    let other = pair.other;
    view.len() + other.is_some() as usize
}
pub fn borrowed_whole(pair: Pair) -> usize {
    let view = &pair;
    let other = pair.other;
    size(view) + other.is_some() as usize
}
