// `ref` in a pattern
pub fn by_ref() -> u32 {
    let kept;
    {
        let pair = (1, 2);
        let (ref first, _) = pair;
        kept = first;
    }
    *kept
}
