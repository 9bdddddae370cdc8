// a field is assigned
pub struct Cell {
    value: u32,
}
pub fn field(cell: &mut Cell) -> u32 {
    let old = &cell.value;
    cell.value = 3;
    *old
}
