// an entry of a map, and the map
use std::collections::HashMap;
pub fn insert_two(map: &mut HashMap<String, u32>) -> u32 {
    let one = map.entry("one".to_string()).or_insert(1);
    let two = map.entry("two".to_string()).or_insert(2);
    *one + *two
}
