// closures in fields, lists, boxes
pub struct Bus<'a> {
    all: Vec<Box<dyn FnMut(u32) + 'a>>,
    named: Option<&'a mut dyn FnMut()>,
}
impl<'a> Bus<'a> {
    pub fn add(&mut self, work: impl FnMut(u32) + 'a) {
        self.all.push(Box::new(work));
    }
    pub fn add_short(&mut self, work: impl FnMut(u32)) {
        self.all.push(Box::new(work));
    }
    pub fn add_reference<'b>(&mut self, work: &'b mut dyn FnMut()) {
        self.named = Some(work);
    }
    pub fn run(&mut self) {
        for work in &mut self.all {
            work(1);
        }
    }
}
pub fn shared(mut list: Vec<u32>) -> usize {
    let mut bus = Bus {
        all: vec![],
        named: None,
    };
    bus.add(|one| list.push(one));
    list.clear();
    bus.run();
    list.len()
}
pub fn twice(mut list: Vec<u32>) {
    let mut bus = Bus {
        all: vec![],
        named: None,
    };
    bus.add(|one| list.push(one));
    bus.add(|_| list.clear());
    bus.run();
}
pub fn inner_scope() {
    let mut bus = Bus {
        all: vec![],
        named: None,
    };
    {
        let mut sum = 0;
        bus.add(|one| sum += one);
    }
    bus.run();
}
pub fn gone() {
    let mut bus = Bus {
        all: vec![],
        named: None,
    };
    let mut sum = 0;
    bus.add(|one| sum += one);
}
pub fn counter() -> impl FnMut() -> u32 {
    let mut count = 0;
    || {
        count += 1;
        count
    }
}
pub fn moved_counter() -> impl FnMut() -> u32 {
    let mut count = 0;
    move || {
        count += 1;
        count
    }
}
pub fn reference_counter<'a>() -> impl FnMut() -> &'a u32 {
    let mut count = 0;
    move || {
        count += 1;
        &count
    }
}
pub fn memo<'a>(slot: &'a mut Option<String>) -> impl FnOnce() -> &'a str {
    move || slot.get_or_insert_with(String::new)
}
pub fn memo_many<'a>(slot: &'a mut Option<String>) -> impl FnMut() -> &'a str {
    move || slot.get_or_insert_with(String::new)
}
pub fn called_once(work: impl FnOnce()) {
    work();
    work();
}
pub fn called_through(work: &impl FnOnce()) {
    work();
}
pub fn compose<'a>(
    one: &'a dyn Fn(u32) -> u32,
    other: &dyn Fn(u32) -> u32,
) -> Box<dyn Fn(u32) -> u32 + 'a> {
    Box::new(move |at| other(one(at)))
}
pub fn recursive(list: &mut Vec<u32>) {
    fn go(list: &mut Vec<u32>, work: &mut dyn FnMut(&mut Vec<u32>)) {
        work(list);
    }
    go(list, &mut |inner| {
        inner.push(1);
        list.push(2);
    });
}
pub fn sort(list: &mut Vec<String>, order: &[usize]) {
    list.sort_by_key(|text| order[text.len() % list.len()]);
}
