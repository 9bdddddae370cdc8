//! A small crate for `nllc.sh rust FOLDER` (docs/FROM-RUST.md).

pub mod words;

/// Books by the letter of their shelf.
pub struct Shelf<'t> {
    titles: Vec<&'t str>,
}

impl<'t> Shelf<'t> {
    pub fn new() -> Self {
        Shelf { titles: Vec::new() }
    }

    pub fn put(&mut self, title: &'t str) -> &mut Self {
        self.titles.push(title);
        self
    }

    pub fn longest(&self) -> Option<&'t str> {
        self.titles.iter().copied().max_by_key(|title| title.len())
    }
}

impl Default for Shelf<'_> {
    fn default() -> Self {
        Self::new()
    }
}
