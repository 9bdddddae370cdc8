//! The problem that a text means, and its counts.

use crate::runs::Run;
use crate::tables::Lists;

/// Stands in place of a point where a constraint holds at all points.
pub const ALL: u32 = u32::MAX;

/// `('sup: 'sub) @ at`.
#[derive(Clone, Copy, PartialEq, Eq, PartialOrd, Ord)]
pub struct Constraint {
    pub sub: u32,
    pub at: u32,
    pub sup: u32,
}

/// A set of universal regions, 256 at most.
pub type Universals = [u64; 4];

/// How points are named: by their numbers, or by their block and index, from each block's first.
pub enum Labels {
    Numbers,
    Blocks(Vec<u32>),
}

/// What a text means: points, regions (universals first, `'static` is 0) and facts, each once.
pub struct Problem<'t> {
    pub points: u32,
    pub universals: u32,
    /// The names of the regions, without the quote.
    pub names: Vec<&'t [u8]>,
    pub successors: Lists,
    /// For each point whether it is a return point.
    pub returns: Vec<bool>,
    /// For each region its base elements but those that universals have by themselves, by as few
    /// runs as can be, ascending.
    pub bases: Vec<Vec<Run>>,
    /// Ascending by sub-region and point; those at all points come last.
    pub constraints: Vec<Constraint>,
    /// For each universal those that an `outlives` line puts below it.
    pub outlives: Vec<Universals>,
    pub labels: Labels,
}

/// Puts a point behind the others.
pub fn push_point(runs: &mut Vec<Run>, p: u32) {
    match runs.last_mut() {
        Some(run) if run.last + 1 == p => run.last = p,
        _ => runs.push(Run { first: p, last: p }),
    }
}

/// Sorts runs, and joins those that touch.
pub fn join(runs: &mut Vec<Run>) {
    if runs.windows(2).all(|w| w[0].last + 1 < w[1].first) {
        return;
    }
    runs.sort_unstable_by_key(|run| run.first);
    runs.dedup_by(|next, before| {
        let touches = next.first <= before.last + 1;
        if touches {
            before.last = before.last.max(next.last);
        }
        touches
    });
}

/// How many points runs have that are joined.
pub fn count(runs: &[Run]) -> usize {
    runs.iter().map(|run| (run.last + 1 - run.first) as usize).sum()
}

impl Problem<'_> {
    pub fn regions(&self) -> u32 {
        self.names.len() as u32
    }

    /// Points and ends together.
    pub fn elements(&self) -> u32 {
        self.points + self.universals
    }
}
