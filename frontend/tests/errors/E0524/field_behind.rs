// a field behind a reference
pub struct State {
    count: u32,
}
pub fn field(state: &mut State) {
    let mut one = || state.count += 1;
    let mut two = || state.count = 0;
    two();
    one();
}
