// an object that lives forever
use std::cell::RefCell;
fn read(_: &RefCell<dyn Fn() -> u8>) {}
pub fn escape(one: &u8) {
    let cell = RefCell::new(move || *one);
    let object = &cell as &RefCell<dyn Fn() -> u8>;
    read(object)
}
