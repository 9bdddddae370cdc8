// what a thread has for itself doesn't leave the closure
use std::cell::RefCell;
thread_local! {
    static NAMES: RefCell<Vec<String>> = const { RefCell::new(Vec::new()) };
}
pub fn leaked() -> &'static RefCell<Vec<String>> {
    NAMES.with(|names| names)
}
pub fn stored() -> usize {
    let mut out: Option<&RefCell<Vec<String>>> = None;
    NAMES.with(|names| out = Some(names));
    out.map_or(0, |names| names.borrow().len())
}
pub fn first() -> String {
    NAMES.with(|names| {
        let names = names.borrow();
        let first = &names[0];
        drop(names);
        first.clone()
    })
}
