// a static and a constant beside a wrong function
pub static NAMES: [&str; 2] = ["a", "b"];
pub const MOST: usize = NAMES.len();
pub fn name(at: usize) -> &'static str {
    let text = NAMES[at].to_uppercase();
    text.as_str()
}
