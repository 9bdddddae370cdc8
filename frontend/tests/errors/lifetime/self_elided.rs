// the result has the lifetime of `self`
pub struct Shelf {
    books: Vec<String>,
}
impl Shelf {
    pub fn find(&self, name: &str) -> &str {
        for book in &self.books {
            if book == name {
                return name;
            }
        }
        ""
    }
}
