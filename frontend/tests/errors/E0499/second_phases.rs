// the second phase of a borrow, where what has come between is still in force
fn both(_: &mut Vec<u32>, _: &mut Vec<u32>) {}
fn work(_: &mut Vec<u32>, _: impl FnMut()) {}
fn view(_: &mut Vec<u32>, _: &Vec<u32>) {}
pub fn written(list: &mut Vec<u32>) {
    both(list, &mut *list);
}
pub fn passed(list: &mut Vec<u32>) {
    both(list, list);
}
pub fn owned(mut list: Vec<u32>) {
    list.append(&mut list);
}
pub fn closure(list: &mut Vec<u32>) {
    work(list, || list.push(1));
}
pub fn owned_closure(mut list: Vec<u32>) {
    list.retain(|_| { list.push(1); true });
}
pub fn owned_shared(mut list: Vec<u32>) {
    list.retain(|_| list.len() > 1);
}
pub fn shared(list: &mut Vec<u32>) {
    view(list, list);
}
pub fn shared_written(list: &mut Vec<u32>) {
    view(list, &*list);
}
pub fn field(mut pair: (Vec<u32>, Vec<u32>)) {
    pair.0.retain(|_| { pair.0.push(1); pair.1.push(2); true });
}
pub fn held(mut list: Vec<u32>) {
    let first = &mut list;
    list.retain(|_| { list.push(1); true });
    first.push(1);
}
pub struct Bag { list: Vec<u32>, count: usize }
impl Bag {
    fn each(&mut self, _: impl FnMut(u32)) {}
    pub fn own(&mut self) { self.each(|_| self.count += 1); }
    pub fn part(&mut self) { self.list.retain(|one| { self.count += *one as usize; true }); }
    pub fn whole(&mut self) { self.each(|one| self.list.push(one)); }
}
