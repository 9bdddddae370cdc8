// the guard of a match reads what the arm's pattern wrote
pub fn chain(text: &mut String) -> bool {
    let tail = text.as_mut_str();
    let is_long = text.len() > 3;
    tail.make_ascii_lowercase();
    is_long
}
