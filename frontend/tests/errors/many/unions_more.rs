// fields of a union, with their parts
#[derive(Clone, Copy)]
pub struct Two {
    one: u32,
    other: u32,
}
pub union Bits {
    two: Two,
    list: [u32; 2],
    wide: u64,
}
pub fn parts(mut bits: Bits) -> u32 {
    unsafe {
        let one = &mut bits.two.one;
        let other = &mut bits.two.other;
        *one = 1;
        *other + *one
    }
}
pub fn other_field(mut bits: Bits) -> u32 {
    unsafe {
        let one = &mut bits.two.one;
        let list = &bits.list;
        *one = 1;
        list[0]
    }
}
pub fn read(mut bits: Bits) -> u64 {
    unsafe {
        let one = &mut bits.two.one;
        let wide = bits.wide;
        *one = 1;
        wide
    }
}
pub fn inside_loop(bits: &mut Bits) -> u32 {
    let mut last = None;
    for at in 0..2 {
        unsafe {
            last = Some(&mut bits.list[at]);
            bits.wide = 0;
        }
    }
    last.map_or(0, |one| *one)
}
