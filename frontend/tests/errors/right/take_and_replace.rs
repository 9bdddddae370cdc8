// out of a field by a replacement
pub enum State {
    Open(String),
    Closed,
}
pub fn close(state: &mut State) -> Option<String> {
    match std::mem::replace(state, State::Closed) {
        State::Open(text) => Some(text),
        State::Closed => None,
    }
}
