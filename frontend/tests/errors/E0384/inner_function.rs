// a function inside a function, whose error is its own
pub fn outer(list: &[u8]) -> u32 {
    #[inline(never)]
    fn inner(list: &[u8]) -> u32 {
        let shift = 0;
        for one in list {
            if *one == 0 {
                return shift;
            }
            shift += 7;
        }
        shift
    }
    inner(list)
}
