pub fn add(list: Vec<u32>) -> Vec<u32> { list.push(1); list } pub fn grow(list: &mut Vec<u32>) { list.push(1); } pub fn twice(text: String) -> String { let own = text; own + &text }
pub fn behind(list: &Vec<u32>) { list.push(1); } pub fn again(list: &mut Vec<u32>) { let first = &list[0]; list.push(*first); list.push(*first); }
