// a closure that is returned holds two lifetimes
pub fn pushes<'a, 'b: 'a>(list: &'b mut Vec<&'b u32>, one: &'a u32) -> impl FnOnce() + 'b {
    move || {
        list.push(one);
    }
}
