pub struct Stack<'s> {
    frames: Vec<Frame<'s>>,
    top: Option<&'s str>,
}
pub struct Frame<'s> {
    name: &'s str,
    vars: Vec<(&'s str, i64)>,
}
impl<'s> Stack<'s> {
    pub fn find(&mut self, name: &str) -> Option<&mut i64> {
        for frame in self.frames.iter_mut().rev() {
            for (key, value) in &mut frame.vars {
                if *key == name {
                    self.top = Some(frame.name);
                    return Some(value);
                }
            }
        }
        None
    }
    pub fn find_or_add(&mut self, name: &'s str) -> &mut i64 {
        for frame in self.frames.iter_mut() {
            if let Some((_, value)) = frame
                .vars
                .iter_mut()
                .find(|(key, _)| *key == name)
            {
                return value;
            }
        }
        let last = self.frames.last_mut().unwrap();
        last.vars.push((name, 0));
        &mut last.vars.last_mut().unwrap().1
    }
    pub fn add(&mut self, name: &str) {
        let last = self.frames.last_mut().unwrap();
        last.vars.push((name, 0));
    }
    pub fn push(&mut self, text: &'s String) {
        let frame = Frame {
            name: text,
            vars: vec![],
        };
        let top = &frame.name;
        self.frames.push(frame);
        self.top = Some(top);
    }
    pub fn run(&mut self) {
        while let Some(frame) = self.frames.last_mut() {
            let Some((name, value)) = frame.vars.pop() else {
                self.frames.pop();
                continue;
            };
            if value > 0 {
                self.frames.pop();
                frame.vars.push((name, value - 1));
            }
            self.top = Some(name);
        }
    }
    pub fn merge(&mut self, other: Stack<'_>) {
        for frame in other.frames {
            self.frames.push(frame);
        }
    }
    pub fn split(mut self) -> (Stack<'s>, Stack<'s>) {
        let rest = self.frames.split_off(1);
        let one = Stack {
            frames: rest,
            ..self
        };
        (one, self)
    }
    pub fn names(&self) -> impl Iterator<Item = &'s str> {
        self.frames.iter().map(|frame| frame.name)
    }
    pub fn names_ok(&self) -> impl Iterator<Item = &'s str> + '_ {
        self.frames.iter().map(|frame| frame.name)
    }
    pub fn longest(&self, other: &Stack<'s>) -> &'s str {
        let one = self.top.unwrap_or("");
        let two = other.top.unwrap_or("");
        if one.len() > two.len() {
            one
        } else {
            two
        }
    }
    pub fn longest_frame(&self, other: &Stack<'s>) -> &Frame<'s> {
        if self.frames.len() > other.frames.len() {
            &self.frames[0]
        } else {
            &other.frames[0]
        }
    }
}
