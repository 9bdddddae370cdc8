//! Each function has one mistake at least: a closure that writes through a reference beside another borrow.

fn show<T>(_: T) {}
fn set(number: &mut u32) {
    *number = 4;
}

pub fn two_closures(number: &mut u32) {
    let mut one = || *number = 1;
    let mut other = || *number = 2;
    one();
    other();
}

pub fn two_closures_that_pass_it_on(number: &mut u32) {
    let mut one = || set(number);
    let mut other = || set(number);
    other();
    one();
}

pub fn closure_behind_a_writer(number: &mut u32) {
    let place = &mut *number;
    let mut write = || *number = 2;
    *place = 1;
    write();
}

pub fn closure_behind_a_reader(number: &mut u32) {
    let view = &number;
    let mut write = || *number = 2;
    show(view);
    write();
}

pub fn reader_behind_a_closure(number: &mut u32) {
    let mut write = || *number = 2;
    show(&number);
    write();
}

pub fn writer_behind_a_closure(number: &mut u32) {
    let mut write = || *number = 2;
    let place = &mut *number;
    write();
    *place = 1;
}

pub fn passed_on_behind_a_closure(number: &mut u32) {
    let mut write = || set(number);
    set(number);
    write();
}

pub fn mutable_itself(mut number: &mut u32, other: &mut u32) {
    let mut one = || *number = 1;
    let mut two = || *number = 2;
    one();
    two();
    number = other;
    show(number);
}

pub fn field(pair: &mut (u32, u32)) {
    let mut write = || pair.0 = 1;
    let whole = &pair;
    write();
    show(whole);
}

pub fn nested(list: &mut Vec<u32>) {
    let mut outer = || {
        let mut inner = || list.push(1);
        list.push(2);
        inner();
    };
    outer();
}

pub fn given_to_a_call(list: &mut Vec<u32>, more: &[u32]) {
    let first = &list[0];
    more.iter().for_each(|number| list.push(*number));
    show(first);
}
