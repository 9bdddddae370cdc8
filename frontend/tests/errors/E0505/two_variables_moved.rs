// one closure moves two variables that are borrowed
pub fn both(one: String, two: String) -> usize {
    let first = &one;
    let second = &two;
    let work = move || one.len() + two.len();
    first.len() + second.len() + work()
}
