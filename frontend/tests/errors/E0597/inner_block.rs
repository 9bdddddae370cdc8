// a variable of an inner block
pub fn inner() -> usize {
    let outer;
    {
        let text = String::from("text");
        outer = &text;
    }
    outer.len()
}
