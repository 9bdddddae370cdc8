// an element by a constant index
pub fn slots(mut cells: [u32; 3]) -> u32 {
    let first = &cells[0];
    cells[0] = 1;
    *first
}
