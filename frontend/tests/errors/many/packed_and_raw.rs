// packed fields and raw pointers
#[repr(packed)]
pub struct Packed {
    one: u8,
    other: u32,
}
pub fn by_value(packed: &Packed) -> u32 {
    {
        packed.other
    }
}
pub fn closure(mut packed: Packed) -> u32 {
    let mut write = || packed.one = 1;
    packed.other = 2;
    write();
    packed.other
}
pub fn raw(mut list: Vec<u32>) -> u32 {
    let first: *mut u32 = &mut list[0];
    list.push(1);
    unsafe { *first }
}
pub fn raw_while_borrowed(mut list: Vec<u32>) -> u32 {
    let first = &list[0];
    let whole = &raw mut list;
    let _ = whole;
    *first
}
pub fn raw_shared(mut list: Vec<u32>) -> u32 {
    let first = &mut list[0];
    let whole = &raw const list;
    let _ = whole;
    *first
}
pub fn address(mut list: Vec<u32>) -> u32 {
    let first = &mut list[0];
    let whole = std::ptr::addr_of!(list);
    let _ = whole;
    *first
}
pub fn out<'a>(pointer: *mut String) -> &'a mut String {
    unsafe { &mut *pointer }
}
pub fn cast<'a, 'b>(text: &'a mut &'b str) -> *mut &'a str {
    text as *mut &'b str as *mut &'a str
}
pub fn through(pointer: &*const String) -> &'static String {
    unsafe { &**pointer }
}
