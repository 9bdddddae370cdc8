// a box gives what is in it
pub fn unbox(cell: Box<String>) -> String {
    let view = &*cell;
    let inner = *cell;
    println!("{view}");
    inner
}
