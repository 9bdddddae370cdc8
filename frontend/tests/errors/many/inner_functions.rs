// functions, methods and closures inside a function
pub fn outer(mut list: Vec<u32>) -> u32 {
    struct Bag(Vec<u32>);
    impl Bag {
        fn grow(&mut self) -> u32 {
            let first = &self.0[0];
            self.0.push(1);
            *first
        }
    }
    fn inner<'a, 'b>(one: &'a str, other: &'b str) -> &'a str {
        if one.is_empty() {
            return other;
        }
        one
    }
    let first = &list[0];
    list.push(inner("a", "b").len() as u32);
    *first + Bag(vec![]).grow()
}
