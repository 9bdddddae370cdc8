// futures in a list
use std::future::Future;
use std::pin::Pin;
pub fn futures<'a>(words: &'a [String]) -> Vec<Pin<Box<dyn Future<Output = usize> + 'a>>> {
    let mut all: Vec<Pin<Box<dyn Future<Output = usize> + 'a>>> = Vec::new();
    for word in words {
        all.push(Box::pin(async move { word.len() }));
    }
    all
}
