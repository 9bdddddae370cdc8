// moved on one way, dropped on the other
pub fn flags(text: String, flag: bool) -> usize {
    let kept;
    if flag {
        kept = Some(text);
    } else {
        println!("{text}");
        kept = None;
    }
    kept.map_or(0, |text| text.len())
}
