// a closure that writes isn't `mut`
pub fn closure() -> u32 {
    let mut count = 0;
    let add = || count += 1;
    add();
    count
}
