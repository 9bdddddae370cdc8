// a field of what isn't `mut`
pub struct Spot {
    pub x: u32,
}
pub fn field(spot: Spot) -> u32 {
    spot.x = 1;
    spot.x
}
