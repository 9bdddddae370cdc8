// a closure outlives what it borrows
pub fn capture() -> u32 {
    let work;
    {
        let number = 3;
        work = || number + 1;
    }
    work()
}
