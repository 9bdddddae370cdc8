// a part of what has a destructor
pub struct File {
    name: String,
}
impl Drop for File {
    fn drop(&mut self) {}
}
pub fn name(file: File) -> String {
    file.name
}
