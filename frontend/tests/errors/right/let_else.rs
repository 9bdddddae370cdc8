// `let .. else`
pub fn parts(line: &str) -> (&str, &str) {
    let Some((left, right)) = line.split_once('=') else {
        return (line, "");
    };
    (left.trim(), right.trim())
}
