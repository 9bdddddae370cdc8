// what is borrowed between the two phases of a borrow
fn go(_: &mut Vec<u32>, _: usize) {}
fn size(_: &mut Vec<u32>) -> usize { 1 }
pub fn written(list: &mut Vec<u32>) {
    go(list, { let one = &mut *list; one.push(1); 1 });
}
pub fn passed(list: &mut Vec<u32>) {
    go(list, size(list));
}
pub fn owned(mut list: Vec<u32>) {
    list.truncate({ let one = &mut list; one.push(1); 1 });
}
pub fn owned_passed(mut list: Vec<u32>) {
    list.truncate(size(&mut list));
}
pub fn owned_method(mut list: Vec<u32>) {
    list.truncate({ list.push(1); 1 });
}
pub fn owned_closure(mut list: Vec<u32>) {
    list.truncate({ let mut add = || list.push(1); add(); 1 });
}
pub fn assigned(mut list: Vec<u32>) {
    list.truncate({ list = vec![]; 1 });
}
pub fn kept(mut list: Vec<u32>) {
    list.truncate({ let one = &mut list; one.push(1); 1 });
    list.truncate({ list.push(1); 1 });
}
pub fn fields(mut pair: (Vec<u32>, u32)) {
    pair.0.truncate({ let one = &mut pair; one.1 = 1; 1 });
    pair.0.truncate({ let one = &mut pair.0; one.push(1); 1 });
}
pub fn held(mut list: Vec<u32>) {
    let one = &mut list;
    list.truncate({ list.push(1); 1 });
    one.push(1);
}
