pub struct Cursor<'c> {
    list: &'c mut Vec<u32>,
    at: usize,
}

impl<'c> Cursor<'c> {
    pub fn here(&'c mut self) -> &'c mut u32 {
        &mut self.list[self.at]
    }

    pub fn twice(mut self) -> u32 {
        let first = self.here();
        let second = *self.here();
        *first + second
    }
}

pub struct Pair<'a, 'b>(&'a mut Vec<&'b str>);

impl<'a, 'b> Pair<'a, 'b> {
    pub fn forever(self, is_first: bool) -> &'static str {
        match self {
            Pair(list) => {
                let part: &'a &'b str = &list[0];
                if is_first {
                    return part;
                }
                let whole: &'b &'a str = &part;
                whole
            }
        }
    }
}

pub fn not_mutable<'a>(list: Vec<&'a mut u32>) -> &'a mut u32 {
    list[0]
}

pub struct Names<'n> {
    all: Vec<&'n str>,
}

impl<'n> Names<'n> {
    fn put(&mut self, others: &mut Vec<&'n str>) {
        self.all.append(others);
    }

    pub fn put_all(&mut self, others: &mut Vec<&str>) {
        self.put(others);
    }
}

pub fn lives_forever<T: 'static>(_: T) {}

pub fn next<'r, 't>(all: &mut Vec<(&'r str, &'t str)>) -> Option<&'t str> {
    let texts = all.clone();
    match texts.first() {
        None => {
            lives_forever(&all);
            let found = texts[0].1;
            all.clear();
            Some(found)
        }
        Some(found) => Some(found.1),
    }
}
