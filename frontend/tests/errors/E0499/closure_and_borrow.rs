// a closure writes what is borrowed
pub fn log() -> String {
    let mut lines = String::new();
    let open = &mut lines;
    let mut add = |word: &str| lines.push_str(word);
    add("one");
    open.push('!');
    lines
}
