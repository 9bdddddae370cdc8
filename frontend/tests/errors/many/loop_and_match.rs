// a state machine
pub enum State {
    Start(String),
    End,
}
pub fn run(mut state: State) -> usize {
    let mut size = 0;
    loop {
        match &state {
            State::Start(text) => {
                state = State::End;
                size += text.len();
            }
            State::End => return size,
        }
    }
}
