// a box is like what is in it
pub fn grow(mut word: Box<String>) -> Box<String> {
    let one = &mut *word;
    let two = &mut word;
    one.push('a');
    two.push('b');
    word
}
