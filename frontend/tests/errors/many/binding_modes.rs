// patterns that borrow by themselves
pub enum Tree {
    Leaf(String),
    Node(Box<Tree>, Box<Tree>),
}
pub fn flip(tree: &mut Tree) {
    if let Tree::Node(left, right) = tree {
        std::mem::swap(left, right);
    }
}
pub fn both(tree: &mut Tree) -> usize {
    match tree {
        Tree::Leaf(text) => {
            *tree = Tree::Leaf(String::new());
            text.len()
        }
        Tree::Node(left, _) => {
            let own = left;
            both(tree) + both(own)
        }
    }
}
pub fn by_at(tree: Tree) -> usize {
    match tree {
        whole @ Tree::Leaf(_) => size(&whole),
        Tree::Node(ref left, _) => {
            let all = &tree;
            size(left) + size(all)
        }
    }
}
pub fn at_and_inner(mut found: Option<String>) -> usize {
    if let ref mut whole @ Some(ref text) = found {
        *whole = None;
    }
    1
}
pub fn at_copies(found: Option<u32>) -> u32 {
    match found {
        whole @ Some(one) => one + whole.unwrap(),
        None => 0,
    }
}
pub fn at_moves(found: Option<String>) -> usize {
    match found {
        whole @ Some(text) => text.len() + whole.is_some() as usize,
        None => 0,
    }
}
fn size(tree: &Tree) -> usize {
    match tree {
        Tree::Leaf(text) => text.len(),
        Tree::Node(left, right) => size(left) + size(right),
    }
}
pub fn rotate(tree: &mut Tree) {
    let Tree::Node(left, _) = tree else { return };
    if let Tree::Node(inner, _) = &mut **left {
        *left = std::mem::replace(inner, Box::new(Tree::Leaf(String::new())));
    }
}
pub fn grow(tree: &mut Tree) -> &mut String {
    let mut at = tree;
    loop {
        match at {
            Tree::Leaf(text) => return text,
            Tree::Node(left, _) => at = left,
        }
    }
}
pub fn grow_or(tree: &mut Tree) -> &mut String {
    if let Tree::Leaf(text) = tree {
        return text;
    }
    *tree = Tree::Leaf(String::new());
    match tree {
        Tree::Leaf(text) => text,
        _ => unreachable!(),
    }
}
pub fn references(pairs: &[(String, u32)]) -> Vec<&'static str> {
    pairs.iter().map(|(text, _)| text.as_str()).collect()
}
pub fn moved_reference(pair: &(String, String)) -> String {
    let (one, other) = *pair;
    one + &other
}
