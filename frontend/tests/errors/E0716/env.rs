// a chain of methods
pub fn chain(line: &str) -> usize {
    let parts: Vec<&str> = line.to_lowercase().split(',').collect();
    parts.len()
}
