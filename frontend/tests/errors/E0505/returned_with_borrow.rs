// a struct moves while a field of it is borrowed
pub struct Letter {
    head: String,
    body: String,
}
pub fn open(letter: Letter) -> String {
    let head = &letter.head;
    let body = letter.body.clone();
    let moved = letter;
    format!("{head}{body}{}", moved.body)
}
