// moved from behind a reference
pub struct Name {
    text: String,
}
pub fn take(name: &Name) -> String {
    name.text
}
