// functions, types and closures that macros make
macro_rules! getters {
    ($($name:ident: $kind:ty),*) => {
        $(
            pub fn $name(&mut self) -> &mut $kind {
                let first = &mut self.$name;
                self.count += 1;
                let again = &mut self.$name;
                first.clear();
                again
            }
        )*
    };
}
pub struct Bag {
    list: Vec<u32>,
    text: String,
    count: usize,
}
impl Bag {
    getters!(list: Vec<u32>, text: String);
}
macro_rules! work {
    ($($body:tt)*) => {
        (|| { $($body)* })()
    };
}
pub fn closure(mut list: Vec<u32>) -> u32 {
    let first = &list[0];
    work!(list.push(1));
    *first
}
macro_rules! repeat {
    ($($one:expr),*) => {
        $( drop($one); )*
    };
}
pub fn repeated(text: String) {
    repeat!(text, text);
}
macro_rules! swap {
    ($one:expr, $other:expr) => {
        std::mem::swap(&mut $one, &mut $other)
    };
}
pub fn swapped(mut list: Vec<u32>) {
    swap!(list[0], list[1]);
}
macro_rules! hash {
    ($($key:expr => $value:expr),*) => {{
        let mut map = std::collections::HashMap::new();
        $( map.insert($key, $value); )*
        map
    }};
}
pub fn mapped() -> usize {
    let map = {
        let text = String::new();
        hash!(1 => text.as_str(), 2 => "b")
    };
    map.len()
}
macro_rules! try_it {
    ($found:expr) => {
        match $found {
            Some(one) => one,
            None => return None,
        }
    };
}
pub fn tried(list: &mut Vec<String>) -> Option<&String> {
    let first = try_it!(list.first());
    list.clear();
    Some(first)
}
macro_rules! longer {
    ($one:ident, $other:ident) => {
        if $one.len() > $other.len() {
            $one
        } else {
            $other
        }
    };
}
pub fn lifetimes<'a, 'b>(one: &'a str, other: &'b str) -> &'a str {
    longer!(one, other)
}
macro_rules! local {
    ($text:expr) => {
        &$text.to_string()
    };
}
pub fn temporary() -> usize {
    let text = local!(1).as_str();
    let other: &str;
    other = local!(2);
    text.len() + other.len()
}
pub fn returned() -> &'static str {
    local!(3)
}
