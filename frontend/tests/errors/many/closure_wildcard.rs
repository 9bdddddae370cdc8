// `_` takes nothing
pub fn nothing(pair: (String, String)) -> usize {
    let look = || {
        let _ = pair.0;
    };
    let own = pair.0;
    look();
    own.len()
}
pub fn half(mut pair: (String, String)) -> usize {
    let look = || {
        let (one, _) = &pair;
        one.len()
    };
    pair.1.clear();
    pair.0.clear();
    look()
}
pub fn matched(mut found: Option<String>) -> bool {
    let look = || match found {
        Some(_) => true,
        None => false,
    };
    found = None;
    look()
}
