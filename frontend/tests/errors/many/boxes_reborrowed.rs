// reborrows through boxes, and moves out of them
pub fn moved(list: Box<Vec<u32>>) -> u32 {
    let first = &list[0];
    let own = *list;
    *first + own.len() as u32
}
pub fn through(mut deep: Box<Box<(String, String)>>) {
    let one = &mut deep.0;
    let other = &mut deep.1;
    one.push_str(other);
    let one = &mut (**deep).0;
    let whole = &mut *deep;
    one.clear();
    whole.1.clear();
}
pub fn of_reference<'a>(boxed: Box<&'a mut String>) -> &'a mut String {
    let text: &mut String = *boxed;
    text
}
pub fn lends(mut boxed: Box<&mut String>) -> usize {
    let text = &mut **boxed;
    boxed.push('a');
    text.len()
}
pub fn out<'a>(mut boxed: Box<String>) -> &'a mut String {
    &mut *boxed
}
pub fn assigned(mut boxed: Box<(String, String)>) -> usize {
    let one = &boxed.0;
    boxed = Box::new((String::new(), String::new()));
    one.len()
}
pub fn part(boxed: Box<(String, String)>) -> usize {
    let one = boxed.0;
    let all = boxed;
    one.len() + all.1.len()
}
