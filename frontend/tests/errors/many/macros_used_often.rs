macro_rules! push {
    ($list:expr, $value:expr) => {
        $list.push($value)
    };
}
macro_rules! moved {
    ($text:ident) => {{
        let own = $text;
        own
    }};
}
macro_rules! set {
    ($number:ident) => {
        $number = 1;
    };
}
macro_rules! closure {
    ($list:ident) => {
        || $list.push(1)
    };
}
macro_rules! function {
    ($name:ident) => {
        pub fn $name(list: &mut Vec<u32>) -> u32 {
            let first = &list[0];
            list.push(1);
            *first
        }
    };
}

pub fn pushed(list: &mut Vec<u32>) {
    let first = &list[0];
    push!(list, 1);
    drop(first);
}

pub fn moved_twice(text: String) -> String {
    let own = moved!(text);
    own + &moved!(text)
}

pub fn set_again(number: u32) -> u32 {
    set!(number);
    number
}

pub fn not_mutable(list: Vec<u32>) {
    let mut add = closure!(list);
    add();
}

pub fn not_mutable_behind(list: &Vec<u32>) {
    let mut add = closure!(list);
    add();
}

pub fn two_closures(mut list: Vec<u32>) {
    let mut add = closure!(list);
    let other = closure!(list);
    add();
    drop(other);
}

pub fn in_a_closure(mut list: Vec<u32>) -> String {
    let mut add = || {
        push!(list, 1);
        let text = String::new();
        let own = moved!(text);
        drop(own);
        moved!(text)
    };
    add()
}

pub fn kept(mut list: Vec<u32>) {
    let mut all = vec![];
    macro_rules! keep {
        () => {
            all.push(&mut list)
        };
    }
    keep!();
    keep!();
    keep!();
}

pub fn right(list: &mut Vec<u32>) -> u32 {
    push!(list, 1);
    push!(list, 2);
    list[0]
}

function!(one);
function!(two);

pub fn set_twice(number: u32) -> u32 {
    set!(number);
    set!(number);
    number
}

pub fn moved_often(text: String) -> String {
    let own = moved!(text);
    let more = moved!(text) + &moved!(text);
    own + &more
}
