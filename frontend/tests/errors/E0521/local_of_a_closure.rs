// a closure keeps a borrow of its own variable in one of the function around it
pub fn keep() -> bool {
    let mut kept = None;
    let mut work = |number: u32| {
        let own = number + 1;
        kept = Some(&own);
    };
    work(1);
    kept.is_some()
}
