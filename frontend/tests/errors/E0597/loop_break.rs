// a loop's value
pub fn loops() -> usize {
    let found: &str = loop {
        let text = String::from("text");
        break &text;
    };
    found.len()
}
