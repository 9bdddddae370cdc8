// a text that a macro makes
pub fn format(number: u32) -> &'static str {
    format!("{number}").as_str()
}
