// an error in a closure, and one in the function around it
pub fn outer(mut list: Vec<u32>) -> usize {
    let work = |mut other: Vec<u32>| {
        let one = &mut other;
        let two = &mut other;
        one.push(1);
        two.push(2);
    };
    work(vec![]);
    let first = &list[0];
    list.push(1);
    *first as usize
}
