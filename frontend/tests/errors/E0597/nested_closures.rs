// a closure in a closure
pub fn nested() -> usize {
    let mut kept: &str = "";
    let mut outer = || {
        let text = String::from("text");
        let mut inner = || kept = &text;
        inner();
    };
    outer();
    kept.len()
}
