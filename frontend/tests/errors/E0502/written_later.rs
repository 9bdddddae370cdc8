// the mutable one first
pub fn show(mut word: String) {
    let writer = &mut word;
    let reader = &word;
    writer.push('a');
    println!("{reader}");
}
