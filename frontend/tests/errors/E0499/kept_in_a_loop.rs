// each turn keeps what it borrows
pub fn gather(word: &mut String) -> Vec<&mut String> {
    let mut kept = Vec::new();
    for _ in 0..2 {
        kept.push(&mut *word);
    }
    kept
}
