pub struct Big {
    a: String,
    b: Vec<u32>,
    c: u32,
}
pub fn update(base: Big) -> (Big, Big) {
    let one = Big {
        c: 1,
        ..base
    };
    let two = Big {
        a: String::new(),
        ..base
    };
    (one, two)
}
pub fn update_two(base: Big) -> Big {
    let one = Big {
        a: String::new(),
        b: vec![],
        ..base
    };
    drop(base);
    one
}
pub fn borrowed(
    base: &Big,
) -> Big {
    Big {
        a: String::new(),
        ..*base
    }
}
pub fn field_moved(
    mut base: Big,
) -> Big {
    let a = base.a;
    base.c = a.len() as u32;
    let taken = std::mem::take(
        &mut base.b,
    );
    base.b = taken;
    base
}
pub fn refilled(
    mut base: Big,
) -> Big {
    drop(base.a);
    base.a = String::new();
    drop(base.b);
    base = Big {
        b: vec![],
        ..base
    };
    base
}
pub fn loaned(
    mut base: Big,
) -> u32 {
    let a = &mut base.a;
    let whole = &base;
    a.push('a');
    let b = &base.b;
    base = Big {
        a: String::new(),
        b: vec![b[0]],
        c: 1,
    };
    whole.c
        + b[0]
}
pub fn tuple(
    pair: (String, (String, u32)),
) -> String {
    let (
        first,
        (second, number),
    ) = pair;
    let number = number
        + pair.1 .1;
    let third = pair.1 .0;
    first
        + &second
        + &third
        + &number.to_string()
}
