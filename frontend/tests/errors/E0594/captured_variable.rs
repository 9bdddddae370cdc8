// a closure writes what isn't `mut`
pub fn variable() -> u32 {
    let count = 0;
    let mut add = || count = 1;
    add();
    count
}
