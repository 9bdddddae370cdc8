// closures that own what they have
pub fn adders(step: u32) -> (impl Fn(u32) -> u32, Box<dyn FnMut() -> u32>) {
    let mut count = 0;
    let next = move || {
        count += step;
        count
    };
    (move |number| number + step, Box::new(next))
}
