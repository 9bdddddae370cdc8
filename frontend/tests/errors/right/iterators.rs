// iterators and closures that borrow
pub fn sums(rows: &[Vec<u32>], mut seen: impl FnMut(u32)) -> Vec<u32> {
    let mut total = 0;
    let sums: Vec<u32> = rows
        .iter()
        .map(|row| {
            total += 1;
            row.iter().copied().filter(|item| *item > 1).sum()
        })
        .collect();
    sums.iter().for_each(|sum| seen(*sum));
    seen(total);
    sums
}
