// a closure that can be called once
pub fn once(text: String) {
    let give = move || text;
    give();
    give();
}
