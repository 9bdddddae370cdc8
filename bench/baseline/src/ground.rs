//! What all owners of a problem share: who owns and reads which region, the steps of the graph by
//! where they leave and by where they land, and the constraints by the region that they read.

use crate::cut::Cut;
use crate::problem::{Constraint, Problem};
use crate::runs::{index_of, Lines, Run};
use std::ops::Range;

pub struct Ground<'p> {
    pub problem: &'p Problem<'p>,
    pub cut: Cut,
    pub lines: Lines,
    /// The jumps, as a target and a point, ascending, and where those of each target begin.
    landings: Vec<(u32, u32)>,
    landing_starts: Vec<u32>,
    constraints: Vec<Constraint>,
    starts: Vec<u32>,
    /// For each region the owners that read it and don't own it, a bit each.
    pub readers: Vec<u64>,
}

impl<'p> Ground<'p> {
    pub fn of(problem: &'p Problem<'p>, cut: Cut) -> Ground<'p> {
        let (constraints, starts) = index_of(problem);
        let lines = Lines::of(problem);
        let (landings, landing_starts) = landings_of(&lines);
        let readers = vec![0; problem.regions() as usize];
        let mut ground =
            Ground { problem, cut, lines, landings, landing_starts, constraints, starts, readers };
        for number in 0..ground.constraints.len() {
            let Constraint { sub, sup, .. } = ground.constraints[number];
            let reader = ground.cut.owner_of(sup);
            if ground.cut.owner_of(sub) != reader {
                ground.readers[sub as usize] |= 1 << reader;
            }
        }
        ground
    }

    pub fn points(&self) -> u32 {
        self.problem.points
    }

    /// The places of the constraints that read a region, by the region that they fill.
    pub fn reading(&self, region: u32) -> Range<usize> {
        self.starts[region as usize] as usize..self.starts[region as usize + 1] as usize
    }

    pub fn constraint(&self, place: usize) -> Constraint {
        self.constraints[place]
    }

    /// The constraints at these places that ask at one of the points of a run.
    pub fn asking_in(&self, places: Range<usize>, run: Run) -> &[Constraint] {
        let pair = &self.constraints[places];
        let from = pair.partition_point(|constraint| constraint.at < run.first);
        let count = pair[from..].partition_point(|constraint| constraint.at <= run.last);
        &pair[from..from + count]
    }

    /// The jumps that lead to a point of the run.
    pub fn landing_in(&self, run: Run) -> &[(u32, u32)] {
        let starts = &self.landing_starts;
        &self.landings[starts[run.first as usize] as usize..starts[run.last as usize + 1] as usize]
    }
}

/// The jumps by where they lead; the number of points stands for the ends.
fn landings_of(lines: &Lines) -> (Vec<(u32, u32)>, Vec<u32>) {
    let points = lines.ends.len() as u32;
    let mut landings = Vec::new();
    let mut starts = vec![0; points as usize + 2];
    for p in 0..points {
        for &target in lines.jumps(Run { first: p, last: p }) {
            landings.push((target, p));
            starts[target as usize + 1] += 1;
        }
    }
    landings.sort_unstable();
    for target in 1..starts.len() {
        starts[target] += starts[target - 1];
    }
    (landings, starts)
}
