// a key and a value with two lifetimes
use std::collections::HashMap;
pub fn invert<'k, 'v>(map: &HashMap<&'k str, &'v str>, word: &'k str) -> Option<&'k str> {
    map.get(word).copied()
}
