// places whose types have lifetimes, in two phases
pub struct Held<'a> { list: Vec<&'a str>, all: &'a mut Vec<u32> }
pub fn inner(held: &mut Held<'_>) {
    held.list.truncate({ held.list.push("a"); 1 });
}
pub fn earlier<'a>(held: &mut Held<'a>) {
    let first = &mut held.list;
    held.list.truncate(1);
    first.push("a");
}
pub fn both(held: &mut Held<'_>) {
    let first = &mut held.list;
    held.list.append(&mut held.list);
    first.push("a");
}
pub fn behind(held: &mut Held<'_>) {
    let first = &mut held.all;
    held.all.append(held.all);
    first.push(1);
}
pub fn closure(held: &mut Held<'_>) {
    held.list.retain(|_| { held.list.push("a"); true });
    held.all.retain(|_| { held.all.push(1); true });
}
pub fn order(mut list: Vec<u32>) {
    list.append(&mut list);
    let first = &mut list;
    list.push(1);
    first.push(1);
    list.append(&mut list);
}
