// out of a closure that is called often
fn often(work: impl Fn() -> String) -> String {
    work()
}
pub fn captured(text: String) -> String {
    often(move || text)
}
