//! What a MIR text says: a body with its declarations.

use crate::problem::Universals;
use crate::shapes::{Shapes, Typed};
use crate::tables::Names;

/// The operand `const`; others are the number of a place.
pub const CONST: u32 = u32::MAX;

/// A variable, and where its projections begin; they end where those of the next place begin.
#[derive(Clone, Copy)]
pub struct Place {
    pub variable: u32,
    pub first: u32,
}

/// A statement or terminator. Places and operands are numbers of places.
#[derive(Clone, Copy)]
pub enum Line {
    Assign { place: u32, operand: u32 },
    Borrow { place: u32, region: u16, borrowed: u32 },
    Make(u32),
    Read(u32),
    /// `live` and `dead`.
    Mark(u32),
    Nop,
    Goto,
    Switch { operand: u32 },
    Drop { variable: u32 },
    Call(u32),
    Return,
    Stop,
}

/// A `make`, and where its operands begin and end.
pub struct Make {
    pub place: u32,
    pub made: Typed,
    pub operands: (u32, u32),
}

/// A call, and where its operands, their types and the pairs of its `where` begin and end.
pub struct Call {
    pub place: u32,
    pub result: Typed,
    pub operands: (u32, u32),
    pub types: u32,
    pub pairs: (u32, u32),
}

/// What a MIR text says.
pub struct Body<'t> {
    pub names: Names<'t>,
    pub universals: u32,
    pub outlives: Vec<Universals>,
    /// The regions that are to hold, at all points, what others hold; some perhaps more than once.
    pub asserts: Vec<(u32, u32)>,
    pub shapes: Shapes,
    pub variables: Vec<Typed>,
    /// The items of all types that are written in the body: regions by their numbers.
    pub items: Vec<u32>,
    pub places: Vec<Place>,
    pub projections: Vec<u32>,
    pub lines: Vec<Line>,
    pub makes: Vec<Make>,
    pub calls: Vec<Call>,
    pub operands: Vec<u32>,
    pub types: Vec<Typed>,
    pub pairs: Vec<(u32, u32)>,
    /// The distinct target blocks of all terminators, and for each terminator where they end.
    pub targets: Vec<u32>,
    pub target_ends: Vec<u32>,
    /// The first point of each block.
    pub blocks: Vec<u32>,
    pub edges: usize,
}

impl Body<'_> {
    pub fn projections(&self, place: u32) -> &[u32] {
        let place = place as usize;
        let end = self.places.get(place + 1).map_or(self.projections.len(), |p| p.first as usize);
        &self.projections[self.places[place].first as usize..end]
    }
}
