// a variable that walks is assigned while what it was borrows it
pub struct Link {
    next: Option<Box<Link>>,
    size: u32,
}
pub fn walk(mut link: Link) -> u32 {
    let size = &link.size;
    link = Link { next: None, size: 0 };
    *size + link.next.map_or(0, |next| next.size)
}
