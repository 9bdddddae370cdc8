// an associated type that lives forever
pub trait Make {
    type Out<'a>: 'static
    where
        Self: 'a;
    fn make<'a>(&'a mut self) -> Self::Out<'a>;
}
pub fn twice<M: Make>(maker: &mut M) {
    let one = maker.make();
    let two = maker.make();
    drop(one);
    drop(two);
}
