// an async block in a closure
pub fn blocks() {
    let mut count = 0;
    let mut work = || async {
        count += 1;
    };
    drop(work());
}
