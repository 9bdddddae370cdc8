// a closure of a kind that doesn't write
fn run(work: impl Fn()) {
    work();
}
pub fn captured() -> u32 {
    let mut count = 0;
    run(|| count += 1);
    count
}
