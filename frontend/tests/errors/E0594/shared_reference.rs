// through a shared reference
pub fn shared(slot: &u32) {
    *slot = 1;
}
