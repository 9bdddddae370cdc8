// a field is read while the struct is borrowed
#[derive(Clone, Copy)]
pub struct Spot {
    x: i32,
    y: i32,
}
pub fn turn(mut spot: Spot) -> Spot {
    let whole = &mut spot;
    let x = spot.x;
    whole.x = whole.y;
    whole.y = x;
    spot
}
