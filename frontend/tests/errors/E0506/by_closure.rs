// a closure has borrowed it
pub fn closure() -> u32 {
    let mut number = 1;
    let show = || println!("{number}");
    number = 2;
    show();
    number
}
