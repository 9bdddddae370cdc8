fn borrow<T>(_v: &T) {}
fn borrow_mut<T>(_v: &mut T) {}
fn cond() -> bool { true }
fn produce<T>() -> T { panic!() }
pub fn loop_overarching_alias_mut(mut v: Box<isize>) {
    let mut x = &mut v;
    for _ in 0..3 {
        borrow(&*v);
    }
    *x = Box::new(5);
}
pub fn block_overarching_alias(mut v: Box<isize>) {
    let mut x = &mut v;
    while cond() {
        if cond() {
            borrow(&*v);
            break;
        }
        *x = Box::new(3);
    }
}
pub fn loop_aliased_mut(mut v: Box<isize>, mut w: Box<isize>) {
    let mut x = &w;
    loop {
        borrow_mut(&mut *v);
        x = &v;
        borrow(x);
    }
}
pub fn loop_aliased_mut_break(mut v: Box<isize>, w: Box<isize>) {
    let mut x = &w;
    loop {
        borrow_mut(&mut *v);
        if cond() {
            x = &v;
            break;
        }
    }
    borrow_mut(&mut *v);
    borrow(x);
}
pub fn while_aliased_mut_cond(mut v: Box<isize>, w: Box<isize>) {
    let mut x = &w;
    while cond() {
        borrow_mut(&mut *v);
        if cond() {
            x = &v;
        }
    }
    borrow(x);
}
pub fn at_most_once_break(mut v: Box<isize>) {
    let mut x = None;
    loop {
        x = Some(&mut *v);
        break;
    }
    borrow(&*v);
    drop(x);
}
pub fn at_most_once_two(mut v: Box<isize>) {
    let mut x = vec![];
    loop {
        x.push(&mut *v);
        if cond() {
            break;
        }
    }
}
pub fn closures(mut v: Box<isize>) {
    let mut f: Box<dyn FnMut()> = Box::new(|| {});
    loop {
        f();
        let r = &mut v;
        f = Box::new(|| **r += 1);
        if cond() {
            continue;
        }
        return;
    }
}
pub fn nested(mut v: Vec<Vec<u32>>) {
    'outer: for i in 0..3 {
        let row = &mut v[i];
        for j in 0..3 {
            let cell = &mut row[j];
            if *cell > 1 {
                row.push(1);
                *cell += 1;
                continue 'outer;
            }
            v.clear();
        }
        row.clear();
    }
}
