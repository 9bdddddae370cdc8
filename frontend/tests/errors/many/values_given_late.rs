fn cond() -> bool { true }
pub fn one(flag: bool) -> u32 {
    let x: u32;
    if flag {
        x = 1;
    }
    x
}
pub fn two(flag: bool) -> u32 {
    let x: u32;
    match flag {
        true => x = 1,
        false => {}
    }
    if flag {
        return x;
    }
    0
}
pub fn three() -> u32 {
    let x: u32;
    while cond() {
        x = 1;
        break;
    }
    x
}
pub fn four() -> u32 {
    let x: u32;
    loop {
        if cond() {
            x = 1;
            break;
        }
    }
    x
}
pub fn five() -> String {
    let s: String;
    let f = || s.len();
    s = String::new();
    f();
    s
}
pub fn six() -> String {
    let s: String;
    s.push('a');
    s
}
pub fn seven() -> (u32, u32) {
    let t: (u32, u32);
    t.0 = 1;
    t.1 = 2;
    t
}
pub fn eight() {
    let x;
    let y: &u32 = &x;
    x = 1;
    drop(y);
}
pub fn nine(flag: bool) -> u32 {
    let x;
    x = 1;
    if flag {
        x = 2;
    }
    x
}
pub fn ten() -> u32 {
    let x;
    for i in 0..3 {
        x = i;
    }
    x
}
pub fn eleven(x: u32) -> impl Fn() -> u32 {
    let y;
    let f = move || y;
    y = x;
    f
}
pub fn twelve(mut v: Vec<String>) -> Vec<String> {
    let last;
    let w = v;
    if cond() {
        v = w;
        last = v.len();
    } else {
        last = w.len();
    }
    if last > 1 {
        v.push(String::new());
    }
    w
}
pub fn thirteen() -> u32 {
    let (a, b): (u32, u32);
    (a, b) = (1, 2);
    (a, _) = (3, 4);
    a + b
}
pub fn fourteen(o: Option<u32>) -> u32 {
    let x;
    if let Some(y) = o {
        x = y;
    } else if cond() {
        x = 1;
    }
    x
}
pub fn fifteen() -> u32 {
    let x: u32;
    let r = loop {
        if cond() {
            break 1;
        }
        x = 2;
    };
    r + x
}
pub const SIXTEEN: u32 = {
    let x;
    if true {
        x = 1;
    }
    x
};
pub fn seventeen() -> u32 {
    let x: u32 = {
        let y;
        y
    };
    x
}
pub fn eighteen(s: String) -> String {
    let t;
    {
        let u = s;
        if cond() {
            t = u;
        }
    }
    t + &s
}
