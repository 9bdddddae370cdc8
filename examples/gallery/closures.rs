//! Closures and async blocks: what they capture is borrowed for as long as they are used.

use std::future::Future;

/// The closure borrows the counter for as long as it is called, so the counter can't be read between two calls.
pub fn read_between_calls() -> u32 {
    let mut counter = 0;
    let mut count = || counter += 1;
    count();
    let before = counter;
    count();
    before
}

/// After its last call the closure's borrow is over.
pub fn read_after_the_calls() -> u32 {
    let mut counter = 0;
    let mut count = || counter += 1;
    count();
    count();
    counter
}

/// The closure leaves the function, and borrows a variable that doesn't: it lacks `move`.
pub fn leaves_the_function(start: u32) -> impl Fn(u32) -> u32 {
    |more| start + more
}

/// With `move` the closure takes the number along.
pub fn takes_it_along(start: u32) -> impl Fn(u32) -> u32 {
    move |more| start + more
}

/// The closure hands on what it captured: that `'b` outlives `'a` is asked of the function around it, which doesn't say so.
pub fn asks_the_function_around<'a, 'b>(first: &'a str, second: &'b str) -> impl Fn(bool) -> &'a str {
    move |is_first| if is_first { first } else { second }
}

async fn pause() {}

/// A borrow may live across an `await`: the future holds both the text and the reference.
pub async fn across_an_await(text: String) -> usize {
    let word = text.trim();
    pause().await;
    word.len()
}

/// The text changes during the `await`, while the reference is needed after it.
pub async fn changed_across_an_await(mut text: String) -> usize {
    let word = text.trim();
    pause().await;
    text.clear();
    word.len()
}

/// The async block runs after the function has returned, and borrows its argument.
pub fn runs_later(text: String) -> impl Future<Output = usize> {
    async { text.len() }
}
