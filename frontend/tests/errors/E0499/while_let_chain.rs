// the node is kept in the variable that walks
pub struct Node {
    next: Option<Box<Node>>,
    size: u32,
}
pub fn ends(mut node: &mut Node) -> u32 {
    let top = &mut *node;
    while let Some(ref mut next) = node.next {
        node = next;
    }
    top.size + node.size
}
