// PhantomData, cells, functions and pointers
use std::cell::Cell;
use std::marker::PhantomData;
pub struct Co<'a>(PhantomData<&'a ()>);
pub struct Contra<'a>(PhantomData<fn(&'a ())>);
pub struct In<'a>(PhantomData<Cell<&'a ()>>);
pub struct Both<'a>(PhantomData<fn(&'a ()) -> &'a ()>);
pub struct Pointer<'a>(*mut &'a ());
pub struct Const<'a>(*const &'a ());
pub fn shorter<'a, 'b: 'a>(one: Co<'b>) -> Co<'a> {
    one
}
pub fn longer<'a, 'b: 'a>(one: Co<'a>) -> Co<'b> {
    one
}
pub fn turned<'a, 'b: 'a>(one: Contra<'a>) -> Contra<'b> {
    one
}
pub fn not_turned<'a, 'b: 'a>(one: Contra<'b>) -> Contra<'a> {
    one
}
pub fn cell<'a, 'b: 'a>(one: In<'b>) -> In<'a> {
    one
}
pub fn both<'a, 'b: 'a>(one: Both<'b>) -> Both<'a> {
    one
}
pub fn pointer<'a, 'b: 'a>(one: Pointer<'b>) -> Pointer<'a> {
    one
}
pub fn constant<'a, 'b: 'a>(one: Const<'b>) -> Const<'a> {
    one
}
pub fn behind<'a, 'b: 'a>(one: &'a mut Co<'b>) -> &'a mut Co<'a> {
    one
}
