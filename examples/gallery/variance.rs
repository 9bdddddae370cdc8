//! Variance: where a longer lifetime may stand for a shorter one, and where it may not.

use std::cell::Cell;

/// A shared reference is covariant: one that lives for `'long` may be returned as one that lives for `'short`.
pub fn shared_is_covariant<'long: 'short, 'short>(text: &'long str) -> &'short str {
    text
}

/// What stands behind `&mut` is invariant: through the shorter type a short-lived text could be put in.
pub fn behind_mut_is_invariant<'a, 'long>(slot: &'a mut &'long str) -> &'a mut &'static str {
    slot
}

/// A `Cell` can be written through a shared reference, so its lifetime is invariant, too.
pub fn cell_is_invariant<'long: 'short, 'short>(cell: &Cell<&'long str>, text: &'short str) {
    let shorter: &Cell<&'short str> = cell;
    shorter.set(text);
}

/// An argument is contravariant: a function that takes any text may stand for one that is given only lasting ones.
pub fn argument_is_contravariant<'short>(take: fn(&'short str)) -> fn(&'static str) {
    take
}

/// The other way round it isn't safe: the function wants texts that last for ever, and would get shorter ones.
pub fn argument_the_other_way<'short>(keep: fn(&'static str)) -> fn(&'short str) {
    keep
}
