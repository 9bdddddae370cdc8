// lifetimes of structs, their methods and their constructors
pub struct Parser<'s, 'e> {
    source: &'s str,
    errors: &'e mut Vec<&'s str>,
    at: usize,
}
impl<'s, 'e> Parser<'s, 'e> {
    pub fn new(source: &'s str, errors: &'e mut Vec<&'s str>) -> Parser<'s, 's> {
        Parser {
            source,
            errors,
            at: 0,
        }
    }
    pub fn rest(&self) -> &'s str {
        &self.source[self.at..]
    }
    pub fn list(&self) -> &'e [&'s str] {
        self.errors
    }
    pub fn list_short(&self) -> &[&'s str] {
        self.errors
    }
    pub fn list_out(self) -> &'e mut Vec<&'s str> {
        self.errors
    }
    pub fn list_mut(&mut self) -> &'e mut Vec<&'s str> {
        self.errors
    }
    pub fn fork(&mut self) -> Parser<'s, '_> {
        Parser {
            source: self.source,
            errors: self.errors,
            at: self.at,
        }
    }
    pub fn fork_long(&mut self) -> Parser<'s, 'e> {
        Parser {
            source: self.source,
            errors: self.errors,
            at: self.at,
        }
    }
    pub fn tell(&mut self, what: &str) {
        self.errors.push(what);
    }
    pub fn tell_own(&mut self) {
        let own = self.source.to_string();
        self.errors.push(&own);
    }
    pub fn step(&mut self) -> &'s str {
        let word = self.rest();
        self.at += 1;
        word
    }
    pub fn step_short(&mut self) -> &str {
        let word = self.list_short().first().unwrap();
        self.at += 1;
        word
    }
    pub fn each(&mut self, mut work: impl FnMut(&'s str, &mut Self)) {
        for word in self.errors.iter() {
            work(word, self);
        }
    }
}
pub fn two_forks(parser: &mut Parser<'_, '_>) {
    let mut one = parser.fork();
    let mut other = parser.fork();
    one.tell("a");
    other.tell("b");
}
pub fn outlives<'s>(source: &'s str) -> Parser<'s, 's> {
    let mut errors = Vec::new();
    Parser {
        source,
        errors: &mut errors,
        at: 0,
    }
}
pub fn self_borrow<'s>(parser: &'s mut Parser<'s, 's>) {
    hold(parser);
    parser.tell("a");
}
fn hold<'s>(_: &'s mut Parser<'s, 's>) {}
pub fn self_borrow_local() {
    let mut errors = Vec::new();
    let source = String::new();
    let mut parser = Parser {
        source: &source,
        errors: &mut errors,
        at: 0,
    };
    hold(&mut parser);
    parser.at = 1;
}
