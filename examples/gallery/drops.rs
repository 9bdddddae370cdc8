//! Drop: what a destructor may look at has to be good until it runs.

/// Prints what it refers to when it is dropped.
pub struct Printer<'a>(&'a String);

impl Drop for Printer<'_> {
    fn drop(&mut self) {
        println!("{}", self.0);
    }
}

/// The text is declared after what refers to it, so it is dropped first, and the destructor would print a dead text.
pub fn looks_at_the_dead() {
    let printer;
    let text = String::from("hello");
    printer = Printer(&text);
}

/// Declared the other way round, the text outlives the destructor's run.
pub fn dropped_in_order() {
    let text = String::from("hello");
    let _printer = Printer(&text);
}

/// A plain reference has no destructor: it may refer to what is gone, as long as nobody looks.
pub fn nobody_looks() {
    let _reference;
    let text = String::from("hello");
    _reference = &text;
}

/// The destructor of a `Vec` promises not to look at its elements, so a vector of references may outlive them.
pub fn a_vector_promises_not_to_look() {
    let mut references = Vec::new();
    let text = String::from("hello");
    references.push(&text);
}

/// The destructor runs at the end of the scope, and that is a use: the text can't change before.
pub fn changed_before_the_drop(mut text: String) -> usize {
    let _printer = Printer(&text);
    text.push('!');
    0
}
