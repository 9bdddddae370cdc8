// what is in a box moves out, and in again
pub fn boxes(mut cell: Box<String>) -> Box<String> {
    let inner = *cell;
    cell = Box::new(inner);
    let view = &mut *cell;
    view.push('a');
    cell
}
