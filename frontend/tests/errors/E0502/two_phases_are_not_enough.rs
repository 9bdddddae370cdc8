// the first phase of a call is a mere reservation; a second borrow that lasts isn't
pub fn extend(list: &mut Vec<u32>) {
    let all = &list;
    list.push(1);
    println!("{:?}", all);
}
