// a borrow leaves a labelled loop or block
pub fn value<'a>(lists: &'a [Vec<u32>]) -> &'a u32 {
    let own = 3;
    'outer: loop {
        for list in lists {
            for one in list {
                if *one > 3 {
                    break 'outer one;
                }
            }
        }
        break &own;
    }
}
pub fn block(list: &mut Vec<u32>) -> u32 {
    let found = 'search: {
        for one in list.iter_mut() {
            if *one == 1 {
                break 'search one;
            }
        }
        list.push(1);
        return 0;
    };
    list.push(2);
    *found
}
pub fn turns(list: &mut Vec<String>) {
    let mut last: Option<&mut String> = None;
    'all: loop {
        for at in 0..list.len() {
            if at == 3 {
                continue 'all;
            }
            last = Some(&mut list[at]);
        }
        if let Some(text) = last.take() {
            text.clear();
            break;
        }
    }
}
pub fn inner_lives(count: usize) -> usize {
    let mut best = "";
    for at in 0..count {
        let text = at.to_string();
        if at == 2 {
            best = &text;
            break;
        }
    }
    best.len()
}
