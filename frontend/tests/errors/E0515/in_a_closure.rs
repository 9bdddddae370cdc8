// a closure returns a borrow of its own variable
pub fn closure() -> usize {
    let make = |size: usize| -> &str {
        let text = "x".repeat(size);
        &text
    };
    make(3).len()
}
