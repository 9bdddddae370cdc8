// an associated type
pub fn items<I: Iterator>(items: I) -> Vec<Box<dyn std::fmt::Debug>>
where
    I::Item: std::fmt::Debug,
{
    let mut all: Vec<Box<dyn std::fmt::Debug>> = Vec::new();
    for item in items {
        all.push(Box::new(item));
    }
    all
}
