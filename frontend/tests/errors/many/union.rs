// fields of a union lie over each other
pub union Word {
    whole: u32,
    half: u16,
}
pub fn shared(mut word: Word) -> u16 {
    unsafe {
        let whole = &word.whole;
        let half = &mut word.half;
        *half = 1;
        *whole as u16
    }
}
pub fn twice(mut word: Word) -> u32 {
    unsafe {
        let whole = &mut word.whole;
        let half = &mut word.half;
        *half = 1;
        *whole
    }
}
pub fn assigned(mut word: Word) -> u32 {
    unsafe {
        let whole = &word.whole;
        word.half = 1;
        *whole
    }
}
