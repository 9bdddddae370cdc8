// the call that uses a borrow later is named, in whichever line of a chain it stands
pub struct Bag {
    list: Vec<u32>,
    names: Vec<String>,
}
impl Bag {
    fn each(&mut self, with: usize, work: impl FnMut(&u32) -> bool) -> &mut Self {
        self.list.truncate(with);
        self.list.retain(work);
        self
    }
    pub fn run(&mut self) {
        self
            .list
            .retain(|one| {
                self.names.push(String::new());
                self.list.len() > *one as usize
            });
    }
    pub fn all(&mut self) {
        let first = &self.names[0];
        self
            .each(1, |one| *one > 1)
            .each(2, |one| first.len() > *one as usize)
            .each(3, |one| *one > 3);
    }
}
fn both(_: &mut Vec<u32>, _: usize, _: &u32) {}
pub fn passed(mut list: Vec<u32>, work: fn(&mut Vec<u32>, &u32)) {
    let first = &list[0];
    both(
        &mut list,
        1,
        first,
    );
    let first = &list[0];
    work(
        &mut list,
        first,
    );
    let works = [work];
    let first = &list[0];
    list.push(1);
    works
        [0](
            &mut vec![],
            first,
        );
}
