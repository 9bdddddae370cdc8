// the entry of a map
use std::collections::HashMap;
pub fn counts<'t>(text: &'t str) -> HashMap<&'t str, u32> {
    let mut counts = HashMap::new();
    for word in text.split(' ') {
        *counts.entry(word).or_insert(0) += 1;
    }
    if let Some(count) = counts.get_mut("a") {
        *count += 1;
    }
    counts
}
