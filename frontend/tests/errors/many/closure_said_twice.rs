pub fn lives_forever<T: 'static>(_: T) {}

pub struct Stack {
    values: Vec<u32>,
}

impl Stack {
    fn parts(&mut self) -> (&mut u32, usize) {
        let count = self.values.len();
        (&mut self.values[0], count)
    }

    pub fn pop(&mut self) -> usize {
        let (first, count) = self.parts();
        lives_forever(|| {
            let _ = &self;
        });
        *first += 1;
        count
    }
}
