// closures capture fields
pub struct State {
    count: u32,
    name: String,
}
pub fn apart(mut state: State) -> usize {
    let mut add = || state.count += 1;
    let size = || state.name.len();
    add();
    size() + state.count as usize
}
