// of a parameter's type
pub fn twice<T>(value: T) -> (T, T) {
    (value, value)
}
