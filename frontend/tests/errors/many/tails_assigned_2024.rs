// edition: 2024
pub fn text() -> String {
    String::new()
}

pub struct Parts<'a> {
    part: &'a str,
}

pub fn take<'a>(text: &'a str) -> &'a str {
    text
}

pub fn given_later() -> usize {
    let part;
    part = {
        text().as_str()
    };
    part.len()
}

pub fn tail_of_the_outer_block() -> usize {
    let part;
    {
        part = { text().as_str() }
    }
    part.len()
}

pub fn through_another_variable() -> usize {
    let mut part = "";
    part.len();
    part = {
        text().as_str()
    };
    let own = part;
    own.len()
}

pub fn into_a_field(parts: &mut Parts<'_>) {
    parts.part = {
        text().as_str()
    };
}

pub fn into_an_own_field() -> usize {
    let mut parts = Parts { part: "" };
    parts.part = {
        text().as_str()
    };
    parts.part.len()
}

pub fn into_a_struct() -> usize {
    let parts = Parts {
        part: {
            text().as_str()
        },
    };
    parts.part.len()
}

pub fn into_a_call() -> usize {
    let part = take({
        text().as_str()
    });
    part.len()
}

pub fn of_a_method() -> usize {
    let length = {
        text().as_str()
    }
    .len();
    length
}

pub fn of_a_variable() -> usize {
    let part;
    part = {
        let own = text();
        &*own
    };
    part.len()
}

pub fn of_a_branch(is_long: bool) -> usize {
    let part;
    part = if is_long {
        let own = text();
        own.as_str()
    } else {
        ""
    };
    part.len()
}

pub fn pushed() -> usize {
    let mut list = vec![];
    list.push({
        let own = text();
        own.as_str()
    });
    list.len()
}
