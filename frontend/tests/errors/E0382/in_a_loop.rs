// moved in the turn before
fn eat(_: String) {}
pub fn turns(text: String) {
    for _ in 0..2 {
        eat(text);
    }
}
