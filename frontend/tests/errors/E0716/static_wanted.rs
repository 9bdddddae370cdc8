// what must live forever
fn forever(_: &'static String) {}
pub fn give() {
    forever(&String::new());
}
