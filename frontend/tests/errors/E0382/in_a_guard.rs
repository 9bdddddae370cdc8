// a guard moves what is matched
pub fn guard(name: Option<String>) -> Option<String> {
    match name {
        Some(_) if { drop(name); false } => None,
        other => other,
    }
}
