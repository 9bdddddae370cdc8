// inside a closure
pub fn run() -> usize {
    let work = |mut list: Vec<u32>| {
        let one = &mut list;
        let two = &mut list;
        one.push(1);
        two.len()
    };
    work(vec![])
}
