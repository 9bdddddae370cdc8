// a destructor may look at what is returned
pub struct Owner<'a> {
    text: &'a mut String,
}
impl Drop for Owner<'_> {
    fn drop(&mut self) {
        self.text.clear();
    }
}
pub fn open<'a>(owner: Owner<'a>) -> &'a mut String {
    &mut *owner.text
}
