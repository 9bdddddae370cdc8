// out of an array
pub fn array(words: [String; 2], at: usize) -> String {
    words[at]
}
