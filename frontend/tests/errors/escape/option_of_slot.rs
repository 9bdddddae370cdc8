// in an option
pub fn option() -> bool {
    let mut text = String::new();
    let mut get = || Some(&mut text);
    get().is_some()
}
