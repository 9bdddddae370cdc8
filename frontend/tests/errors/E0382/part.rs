// a part was moved
pub struct Letter {
    head: String,
    body: String,
}
pub fn part(letter: Letter) -> (String, Letter) {
    let head = letter.head;
    println!("{}", letter.body);
    (head, letter)
}
