//! The least values: each region has a bit row of elements, each pair of a sub-region and a point
//! has the set of what paths reach from the point inside the region, kept under insertions.

use crate::problem::{Constraint, Problem, ALL};
use crate::tables::Lists;

/// A set of elements as a row of bits; a row without words is empty.
#[derive(Clone, Default)]
pub struct Row(Vec<u64>);

impl Row {
    pub fn has(&self, e: u32) -> bool {
        self.0.get(e as usize / 64).is_some_and(|word| word >> (e % 64) & 1 == 1)
    }

    /// Adds an element below `64 * words`; true where it is new.
    fn insert(&mut self, e: u32, words: usize) -> bool {
        if self.0.is_empty() {
            self.0.resize(words, 0);
        }
        let word = &mut self.0[e as usize / 64];
        let bit = 1 << (e % 64);
        let new = *word & bit == 0;
        *word |= bit;
        new
    }

    fn remove(&mut self, e: u32) {
        self.0[e as usize / 64] &= !(1 << (e % 64));
    }

    /// The elements in ascending order.
    pub fn iter(&self) -> impl Iterator<Item = u32> + '_ {
        self.0.iter().enumerate().flat_map(|(index, &word)| Bits(word, index as u32 * 64))
    }
}

/// The bits that are set in a word, counted from a first element.
struct Bits(u64, u32);

impl Iterator for Bits {
    type Item = u32;

    fn next(&mut self) -> Option<u32> {
        if self.0 == 0 {
            return None;
        }
        let e = self.1 + self.0.trailing_zeros();
        self.0 &= self.0 - 1;
        Some(e)
    }
}

/// Above so many words for all reached sets together none is kept, and paths are walked anew.
const KEPT_WORDS: usize = 1 << 24;

/// What paths from `at` reach inside one region, asked for by constraints of several regions. Where
/// `at` is `ALL` nothing is kept: what comes into the region is passed on.
struct Frontier {
    at: u32,
    /// Where its super-regions stand in the list of constraints.
    first: usize,
    last: usize,
    reached: Row,
    /// Whether a return point is reached, and so each end that the region holds.
    returned: bool,
}

/// The state of a run: the values so far and what is still to be looked at.
struct Solver<'p> {
    problem: &'p Problem<'p>,
    predecessors: Lists,
    words: usize,
    values: Vec<Row>,
    /// For each region its frontiers; region r has those from `starts[r]` to `starts[r + 1]`.
    frontiers: Vec<Frontier>,
    starts: Vec<usize>,
    keeps: bool,
    /// An empty row with room, for the frontier that is walked where none is kept.
    spare: Row,
    begun: Vec<bool>,
    dirty: Vec<bool>,
    /// For each region that has begun the elements that came to it since it was looked at.
    fresh: Vec<Vec<u32>>,
}

/// The values of all regions in region order.
pub fn solve(problem: &Problem) -> Vec<Row> {
    let mut solver = Solver::new(problem);
    let order = order_of(problem);
    let mut again = true;
    while again {
        again = false;
        for &region in &order {
            if std::mem::take(&mut solver.dirty[region as usize]) {
                solver.visit(region);
                again = true;
            }
        }
    }
    solver.values
}

/// The regions in an order in which a sub-region stands before its super-regions save in circles.
pub fn order_of(problem: &Problem) -> Vec<u32> {
    let regions = problem.regions() as usize;
    let mut starts = vec![0; regions + 1];
    for constraint in &problem.constraints {
        starts[constraint.sub as usize + 1] += 1;
    }
    for region in 0..regions {
        starts[region + 1] += starts[region];
    }
    let mut next = starts.clone();
    let mut seen = vec![false; regions];
    let mut order = Vec::with_capacity(regions);
    let mut path = Vec::new();
    for root in 0..regions {
        if std::mem::replace(&mut seen[root], true) {
            continue;
        }
        path.push(root);
        while let Some(&region) = path.last() {
            if next[region] == starts[region + 1] {
                order.push(region as u32);
                path.pop();
                continue;
            }
            let sup = problem.constraints[next[region]].sup as usize;
            next[region] += 1;
            if !std::mem::replace(&mut seen[sup], true) {
                path.push(sup);
            }
        }
    }
    order.reverse();
    order
}

/// The frontiers of the constraints, and where those of each region begin.
fn frontiers_of(constraints: &[Constraint], regions: usize) -> (Vec<Frontier>, Vec<usize>) {
    let mut frontiers = Vec::new();
    let mut starts = vec![0; regions + 1];
    let mut first = 0;
    for group in constraints.chunk_by(|a, b| (a.sub, a.at) == (b.sub, b.at)) {
        let last = first + group.len();
        let (reached, returned) = (Row::default(), false);
        frontiers.push(Frontier { at: group[0].at, first, last, reached, returned });
        starts[group[0].sub as usize + 1] += 1;
        first = last;
    }
    for region in 0..regions {
        starts[region + 1] += starts[region];
    }
    (frontiers, starts)
}

impl<'p> Solver<'p> {
    fn new(problem: &'p Problem<'p>) -> Solver<'p> {
        let regions = problem.regions() as usize;
        let words = problem.elements().div_ceil(64) as usize;
        let (frontiers, starts) = frontiers_of(&problem.constraints, regions);
        let mut solver = Solver {
            problem,
            predecessors: problem.successors.turned(),
            words,
            values: vec![Row::default(); regions],
            keeps: frontiers.len().saturating_mul(words) <= KEPT_WORDS,
            spare: Row::default(),
            frontiers,
            starts,
            begun: vec![false; regions],
            dirty: vec![true; regions],
            fresh: vec![Vec::new(); regions],
        };
        for (region, runs) in problem.bases.iter().enumerate() {
            for p in runs.iter().flat_map(|run| run.first..=run.last) {
                solver.values[region].insert(p, words);
            }
        }
        for region in 0..problem.universals {
            let value = &mut solver.values[region as usize];
            (0..problem.points).chain([problem.points + region]).for_each(|e| {
                value.insert(e, words);
            });
        }
        solver
    }

    /// Brings all frontiers of a region up to its value and passes on what they newly reach.
    fn visit(&mut self, region: u32) {
        let at = region as usize;
        let begun = std::mem::replace(&mut self.begun[at], true);
        let fresh = std::mem::take(&mut self.fresh[at]);
        let mut found = Vec::new();
        for index in self.starts[at]..self.starts[at + 1] {
            if self.frontiers[index].at == ALL {
                if begun {
                    found.extend_from_slice(&fresh);
                } else {
                    found.extend(self.values[at].iter());
                }
                self.pass_on(index, region, &found);
                found.clear();
                continue;
            }
            if !self.keeps {
                self.frontiers[index].reached = std::mem::take(&mut self.spare);
            }
            let frontier = &self.frontiers[index];
            let open = begun && frontier.reached.has(frontier.at);
            if open {
                for &e in &fresh {
                    if self.is_touched(index, e) {
                        self.flood(index, at, e, &mut found);
                    }
                }
            } else if self.values[at].has(frontier.at) {
                self.flood(index, at, frontier.at, &mut found);
            }
            self.pass_on(index, region, &found);
            if !self.keeps {
                self.forget(index, &found);
            }
            found.clear();
        }
    }

    /// Whether an element isn't reached but a step leads to it from an element that is.
    fn is_touched(&self, index: usize, e: u32) -> bool {
        let frontier = &self.frontiers[index];
        if frontier.reached.has(e) {
            return false;
        }
        if e >= self.problem.points {
            return frontier.returned;
        }
        self.predecessors.of(e).iter().any(|&p| frontier.reached.has(p))
    }

    /// Adds an element of the region to the frontier, and all that paths inside reach from it.
    fn flood(&mut self, index: usize, region: usize, from: u32, found: &mut Vec<u32>) {
        let Solver { problem, values, frontiers, words, .. } = self;
        let (value, frontier) = (&values[region], &mut frontiers[index]);
        let mut done = found.len();
        frontier.reached.insert(from, *words);
        found.push(from);
        while let Some(&p) = found.get(done) {
            done += 1;
            if p >= problem.points {
                continue;
            }
            for &q in problem.successors.of(p) {
                if value.has(q) && frontier.reached.insert(q, *words) {
                    found.push(q);
                }
            }
            if problem.returns[p as usize] && !frontier.returned {
                frontier.returned = true;
                let ends = problem.points..problem.elements();
                found.extend(ends.filter(|&e| value.has(e) && frontier.reached.insert(e, *words)));
            }
        }
    }

    /// Adds what a frontier newly reaches to its super-regions.
    fn pass_on(&mut self, index: usize, region: u32, found: &[u32]) {
        let (first, last) = (self.frontiers[index].first, self.frontiers[index].last);
        for constraint in &self.problem.constraints[first..last] {
            if constraint.sup == region {
                continue;
            }
            let sup = constraint.sup as usize;
            let watched = self.begun[sup] && self.starts[sup] < self.starts[sup + 1];
            for &e in found {
                if self.values[sup].insert(e, self.words) && watched {
                    self.fresh[sup].push(e);
                    self.dirty[sup] = true;
                }
            }
        }
    }

    /// Empties a frontier of what a flood from its point found, and hands its room on.
    fn forget(&mut self, index: usize, found: &[u32]) {
        let frontier = &mut self.frontiers[index];
        frontier.returned = false;
        for &e in found {
            frontier.reached.remove(e);
        }
        self.spare = std::mem::take(&mut frontier.reached);
    }
}
