// assigned to a parameter
pub fn assign<'a, 'b>(slot: &mut &'a str, word: &'b str) {
    *slot = word;
}
