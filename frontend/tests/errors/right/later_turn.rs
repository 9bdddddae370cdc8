// used in the next turn of the loop, before the list changes
pub fn turns(list: &mut Vec<u32>) {
    let mut last: &u32 = &0;
    for number in 0..3 {
        println!("{last}");
        list.push(number);
        last = &list[0];
    }
}
