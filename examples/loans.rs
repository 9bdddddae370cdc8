//! Loans for `./nllc.sh rust` (docs/FROM-RUST.md). rustc refuses both functions, and `nllc` the first.

use std::collections::HashMap;

/// A vector is changed while one of its elements is borrowed.
pub fn grow(scores: &mut Vec<u32>) -> u32 {
    let first = &mut scores[0];
    scores.push(1);
    *first += 1;
    *first
}

/// What is found is returned; what isn't is put in. This is RFC 2094's third problem case.
pub fn get_default<'r>(map: &'r mut HashMap<u32, u32>, key: u32) -> &'r mut u32 {
    match map.get_mut(&key) {
        Some(value) => value,
        None => {
            map.insert(key, 0);
            map.get_mut(&key).unwrap()
        }
    }
}
