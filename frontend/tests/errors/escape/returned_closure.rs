// a closure in a closure
pub fn nested() {
    let mut list = vec![1];
    let mut make = || || list.push(2);
    make()();
}
