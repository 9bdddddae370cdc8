// out of a shared pointer
use std::rc::Rc;
pub fn shared(text: Rc<String>) -> String {
    *text
}
