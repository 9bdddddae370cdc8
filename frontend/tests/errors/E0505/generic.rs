// a parameter of any type
pub fn generic<T: Clone>(value: T) -> (T, T) {
    let view = &value;
    let moved = value;
    (view.clone(), moved)
}
