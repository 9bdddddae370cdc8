// an element is borrowed, and the list grows
pub fn again(list: &mut Vec<String>) {
    let first = &list[0];
    list.push(String::new());
    println!("{first}");
}
