// the body of a closure needs what a `move` can't give
fn call(_: impl FnOnce(&u32) -> &u32) {}
pub fn needs() {
    let own = 22;
    call(|_| &own)
}
