// a guard moves, borrows or assigns what is bound or matched
pub fn assigns(mut found: Option<u32>) -> u32 {
    match found {
        Some(_)
            if {
                found = None;
                true
            } =>
        {
            1
        }
        Some(other) => other,
        None => 0,
    }
}
pub fn borrows(mut found: Option<u32>) -> u32 {
    match found {
        None => 0,
        Some(_)
            if {
                let one = &mut found;
                *one = None;
                false
            } =>
        {
            1
        }
        Some(other) => other,
    }
}
pub fn moves(found: Option<String>) -> usize {
    match found {
        Some(text)
            if {
                drop(text);
                false
            } =>
        {
            1
        }
        Some(text) => text.len(),
        None => 0,
    }
}
pub fn by_reference(mut found: Option<String>) -> usize {
    match found {
        Some(ref mut text)
            if {
                text.push('a');
                text.is_empty()
            } =>
        {
            1
        }
        Some(ref mut text) => text.len(),
        None => 0,
    }
}
pub fn takes_reference(mut found: Option<String>) -> usize {
    match found {
        Some(ref mut text)
            if {
                let own = text;
                own.is_empty()
            } =>
        {
            1
        }
        _ => 0,
    }
}
