// returned early
pub fn early(flag: bool, other: &str) -> &str {
    let own = other.to_string();
    if flag {
        return &own;
    }
    other
}
