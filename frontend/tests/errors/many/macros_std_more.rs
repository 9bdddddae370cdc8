use std::fmt::Write;

thread_local! {
    static NAMES: Vec<String> = {
        let list = vec![String::new()];
        let first = &list[0];
        drop(list);
        vec![first.clone()]
    };
}

pub fn repeated(text: String) -> Vec<String> {
    let all = vec![text; 3];
    drop(text);
    all
}

pub fn equal(one: Vec<u32>, two: Vec<u32>) {
    assert_eq!(
        one,
        two,
        "{:?}",
        {
            drop(one);
            1
        },
    );
}

pub fn written(out: &mut String) {
    let part = &out[..];
    write!(
        out,
        "{}",
        part,
    )
    .unwrap();
}

pub fn written_again(mut out: String) -> String {
    let part = out.as_str();
    writeln!(out, "a").unwrap();
    format!(
        "{part}{}",
        out,
    )
}

pub fn matched(text: Option<String>) -> bool {
    let is_long = matches!(text, Some(own) if own.len() > 1);
    is_long && text.is_some()
}

pub fn debugged(mut text: String) -> String {
    let lent = dbg!(&mut text);
    let length = dbg!(text.len());
    lent.push('a');
    text + &length.to_string()
}

pub fn panicking(text: &mut String) -> &str {
    let part = text.trim();
    if part.is_empty() {
        panic!("{}", {
            text.clear();
            part
        });
    }
    part
}

pub fn arguments(text: &mut String) -> std::fmt::Arguments<'_> {
    let own = text.clone();
    format_args!("{}{}", text, own)
}

pub fn tried(list: &mut Vec<String>) -> Result<&String, std::fmt::Error> {
    let first = list.first().ok_or(std::fmt::Error)?;
    write!(list[1], "{}", first)?;
    Ok(first)
}
