// a value of a map is looked up, and another one put in
use std::collections::BTreeMap;
pub fn copy(map: &mut BTreeMap<u32, String>) {
    let one = map.get(&1);
    map.insert(2, one.cloned().unwrap_or_default());
    println!("{:?}", one);
}
