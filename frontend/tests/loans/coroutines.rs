//! Right functions: `async` bodies that hold borrows over an `await`, and blocks of them.

use std::future::Future;
use std::pin::Pin;
use std::task::{Context, Poll};

pub struct Ready<'r>(&'r str);

impl<'r> Future for Ready<'r> {
    type Output = &'r str;
    fn poll(self: Pin<&mut Self>, _: &mut Context<'_>) -> Poll<&'r str> {
        Poll::Ready(self.0)
    }
}

pub async fn plain(number: u32) -> u32 {
    number + 1
}

pub async fn handed<'a>(text: &'a str) -> &'a str {
    Ready(text).await
}

pub async fn longer<'a>(one: &'a str, other: &'a str) -> &'a str {
    let first = handed(one).await;
    let second = handed(other).await;
    if first.len() > second.len() { first } else { second }
}

pub async fn pushed<'a>(list: &mut Vec<&'a str>, text: &'a str) {
    list.push(handed(text).await);
}

pub async fn two<'a, 'b>(one: &'a str, other: &'b str) -> (&'a str, &'b str) {
    (handed(one).await, handed(other).await)
}

pub async fn kept_over_a_wait(list: &mut Vec<u32>) -> u32 {
    let first = &mut list[0];
    *first += plain(1).await;
    *first += plain(2).await;
    list.push(3);
    list.len() as u32
}

pub async fn in_a_loop(words: &[String]) -> usize {
    let mut sum = 0;
    for word in words {
        sum += handed(word).await.len();
    }
    sum
}

pub async fn in_a_match(text: Option<&str>) -> usize {
    match text {
        Some(text) => handed(text).await.len(),
        None => plain(0).await as usize,
    }
}

pub fn block<'a>(text: &'a str) -> impl Future<Output = usize> + 'a {
    async move { handed(text).await.len() }
}

pub fn block_of_a_local() -> impl Future<Output = usize> {
    async {
        let text = String::from("a");
        handed(&text).await.len()
    }
}

pub fn boxed<'a>(text: &'a str) -> Pin<Box<dyn Future<Output = &'a str> + 'a>> {
    Box::pin(async move { handed(text).await })
}

pub async fn closure_inside(list: &[u32], least: u32) -> usize {
    let large = |number: &&u32| **number > least;
    let count = list.iter().filter(large).count();
    plain(count as u32).await as usize
}

pub struct Store<'s> {
    names: Vec<&'s str>,
    size: usize,
}

impl<'s> Store<'s> {
    pub async fn add(&mut self, name: &'s str) -> usize {
        self.names.push(handed(name).await);
        self.size += 1;
        self.size
    }

    pub async fn last(&self) -> Option<&'s str> {
        let last = self.names.last()?;
        Some(handed(last).await)
    }

    pub async fn each(&mut self, more: &[&'s str]) {
        for name in more {
            self.add(name).await;
        }
    }
}

pub async fn question(text: &str) -> Result<u32, std::num::ParseIntError> {
    let number: u32 = handed(text).await.parse()?;
    Ok(plain(number).await)
}

pub async fn nested(text: &str) -> usize {
    let inner = async { handed(text).await.len() };
    let other = async { plain(1).await };
    inner.await + other.await as usize
}

pub async fn generic<T: AsRef<str>>(value: T) -> usize {
    let text = value.as_ref();
    handed(text).await.len()
}

pub async fn moved(text: String) -> String {
    let view = handed(&text).await.to_string();
    drop(text);
    view
}
