// a struct taken apart by references
pub struct Row {
    name: String,
    cells: Vec<u32>,
}
pub fn rows(mut row: Row) -> usize {
    let Row { name, cells } = &row;
    let other = &mut row;
    other.cells.push(1);
    name.len() + cells.len()
}
