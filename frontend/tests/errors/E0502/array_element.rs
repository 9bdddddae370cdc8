// an element of an array
pub fn array(mut cells: [String; 2], at: usize) -> String {
    let one = &cells[at];
    let two = &mut cells[0];
    two.push_str(one);
    two.clone()
}
