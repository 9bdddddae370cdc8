//! Words of titles.

/// The first word, or all of it.
pub fn first_word(title: &str) -> &str {
    match title.split_once(' ') {
        Some((word, _)) => word,
        None => title,
    }
}

/// How many words there are with the first one of the title.
pub fn counted<'t>(title: &'t str, words: &mut Vec<&'t str>) -> usize {
    words.push(first_word(title));
    words.len()
}
