// names like words of the language, and of the tool
pub fn r#match(mut r#type: Vec<u32>) -> u32 {
    let r#loop = &r#type[0];
    r#type.push(1);
    *r#loop
}
pub fn _1(mut _2: Vec<u32>) -> u32 {
    let _3 = &_2[0];
    _2.push(1);
    *_3
}
pub fn r1<'r1, 'r2>(r3: &'r1 str, r4: &'r2 str) -> &'r1 str {
    r4
}
pub fn static_<'_static>(x: &'_static str) -> &'static str {
    x
}
pub fn naïve(mut größe: Vec<u32>) -> u32 {
    let ß = &größe[0]; /* ünïcode */
    größe.push(1);
    *ß
}
pub fn tabs(mut list: Vec<u32>) -> u32 {
    let first = &list[0];
    list.push(1);
    *first
}
