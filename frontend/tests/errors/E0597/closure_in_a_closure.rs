// a closure that is made in a closure, on further lines
pub fn kept(text: String) -> impl FnOnce() -> usize {
    let outer = || {
        let inner = || text.len();
        inner()
    };
    outer
}
