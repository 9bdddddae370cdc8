// a variable that walks
pub struct Node {
    next: Option<Box<Node>>,
    size: u32,
}
pub fn last(mut node: &mut Node) -> &mut u32 {
    while node.next.is_some() {
        node = node.next.as_mut().unwrap();
    }
    &mut node.size
}
