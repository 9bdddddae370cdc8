// used in the next turn of the loop, behind the change
pub fn turns(list: &mut Vec<u32>) {
    let mut last: &u32 = &0;
    for number in 0..3 {
        list.push(number);
        println!("{last}");
        last = &list[0];
    }
}
