// edition: 2024
// the temporary of `if let` is gone before the `else`, the variable before its user
use std::cell::RefCell;
pub fn user() -> usize {
    let kept;
    {
        let cell = RefCell::new(vec![1]);
        kept = cell.borrow();
    }
    kept.len()
}
