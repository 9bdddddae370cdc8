//! The least values by the algorithm that `nllc` has: values are runs of elements, and a region
//! whose value grew is visited. For each region that its constraints fill, the walks from their
//! points are made anew, a stretch of a line of points at a time; no walk is kept.

use crate::problem::{Constraint, Problem, ALL};
use crate::solve::order_of;

/// The elements from the first to the last.
#[derive(Clone, Copy, PartialEq)]
pub struct Run {
    pub first: u32,
    pub last: u32,
}

/// A set of elements as ascending runs, no two of which touch.
#[derive(Clone, Default, PartialEq)]
pub struct Runs(pub Vec<Run>);

impl Runs {
    /// The place of the first run that ends at `least` or later.
    #[inline]
    pub fn ends_from(&self, least: u32) -> usize {
        let runs = &self.0;
        let len = runs.len();
        if len == 0 || runs[len - 1].last < least {
            return len;
        }
        if len == 1 || runs[len - 2].last < least {
            return len - 1;
        }
        runs.partition_point(|run| run.last < least)
    }

    /// The first run that ends at `e` or later.
    #[inline]
    pub fn run_from(&self, e: u32) -> Option<Run> {
        self.0.get(self.ends_from(e)).copied()
    }

    /// Whether the run at a place is the first one that ends at `least` or later.
    #[inline]
    fn is_first(&self, at: usize, least: u32) -> bool {
        let runs = &self.0;
        at < runs.len() && runs[at].last >= least && (at == 0 || runs[at - 1].last < least)
    }

    /// The same as `run_from`, with its place, which may be the one that is given or the next.
    #[inline]
    fn run_near(&self, near: usize, e: u32) -> (usize, Option<Run>) {
        let at = if self.is_first(near, e) {
            near
        } else if self.is_first(near + 1, e) {
            near + 1
        } else {
            self.ends_from(e)
        };
        (at, self.0.get(at).copied())
    }

    pub fn has(&self, e: u32) -> bool {
        self.run_from(e).is_some_and(|run| run.first <= e)
    }

    /// The elements in ascending order.
    pub fn iter(&self) -> impl Iterator<Item = u32> + '_ {
        self.0.iter().flat_map(|run| run.first..=run.last)
    }

    /// Puts a run in, and the runs of its elements that are new at the end of a list.
    pub fn insert_new(&mut self, run: Run, new: &mut Vec<Run>) {
        let known = new.len();
        let mut next = run.first;
        for other in &self.0[self.ends_from(run.first)..] {
            if other.first > run.last {
                break;
            }
            if other.first > next {
                new.push(Run { first: next, last: other.first - 1 });
            }
            next = other.last + 1;
        }
        if next <= run.last {
            new.push(Run { first: next, last: run.last });
        }
        if new.len() > known {
            self.insert(run);
        }
    }

    /// Puts a run in; true where an element of it is new.
    #[inline]
    pub fn insert(&mut self, run: Run) -> bool {
        let from = self.ends_from(run.first.saturating_sub(1));
        let runs = &mut self.0;
        if from < runs.len() && runs[from].first <= run.first && run.last <= runs[from].last {
            return false;
        }
        let mut to = from;
        while to < runs.len() && runs[to].first <= run.last + 1 {
            to += 1;
            if to - from == 8 {
                to += runs[to..].partition_point(|other| other.first <= run.last + 1);
                break;
            }
        }
        if from == to {
            runs.insert(from, run);
        } else {
            let first = runs[from].first.min(run.first);
            let last = runs[to - 1].last.max(run.last);
            runs[from] = Run { first, last };
            runs.drain(from + 1..to);
        }
        true
    }
}

/// For each point the last point of its line, and where its other steps lead; the number of points
/// stands for the ends.
pub struct Lines {
    pub ends: Vec<u32>,
    starts: Vec<u32>,
    jumps: Vec<u32>,
}

impl Lines {
    pub fn of(problem: &Problem) -> Lines {
        let points = problem.points;
        let mut ends: Vec<u32> = (0..points).collect();
        let mut starts = Vec::with_capacity(points as usize + 1);
        let mut jumps = Vec::new();
        starts.push(0);
        for p in 0..points {
            for &q in problem.successors.of(p) {
                if q == p + 1 {
                    ends[p as usize] = q;
                } else {
                    jumps.push(q);
                }
            }
            if problem.returns[p as usize] {
                jumps.push(points);
            }
            starts.push(jumps.len() as u32);
        }
        for p in (0..points as usize).rev() {
            if ends[p] as usize != p {
                ends[p] = ends[p + 1];
            }
        }
        Lines { ends, starts, jumps }
    }

    #[inline]
    pub fn jumps(&self, run: Run) -> &[u32] {
        &self.jumps[self.starts[run.first as usize] as usize..self.starts[run.last as usize + 1] as usize]
    }
}

/// What a walk has reached, and the stretches that it has still to follow.
#[derive(Default)]
struct Walk {
    reached: Runs,
    todo: Vec<Run>,
}

/// Enters the stretch from a point of a run on, where it is new: into what is reached, and at the end
/// of a list.
#[inline]
pub fn enter(lines: &Lines, inside: Run, point: u32, reached: &mut Runs, list: &mut Vec<Run>) {
    let most = lines.ends[point as usize].min(inside.last);
    let last = match reached.run_from(point) {
        Some(next) if next.first <= point => return,
        Some(next) => most.min(next.first - 1),
        None => most,
    };
    let run = Run { first: point, last };
    reached.insert(run);
    list.push(run);
}

impl Walk {
    #[inline]
    fn enter(&mut self, lines: &Lines, inside: Run, point: u32) {
        enter(lines, inside, point, &mut self.reached, &mut self.todo);
    }

    /// Reaches what walks inside a set reach from the points of constraints, which ascend; the whole
    /// set where the last one holds at all points.
    fn reach(&mut self, lines: &Lines, sub: &Runs, pair: &[Constraint]) {
        let points = lines.ends.len() as u32;
        self.reached.0.clear();
        if pair.last().is_some_and(|constraint| constraint.at == ALL) {
            self.reached.0.extend_from_slice(&sub.0);
            return;
        }
        let mut place = 0;
        let mut near = 0;
        while place < pair.len() {
            let point = pair[place].at;
            let (at, found) = sub.run_near(near, point);
            let Some(run) = found else {
                break;
            };
            near = at;
            let mut next = run.first;
            if run.first <= point {
                self.enter(lines, run, point);
                next = lines.ends[point as usize].min(run.last) + 1;
            }
            place += 1;
            if place < pair.len() && pair[place].at < next {
                place += pair[place..].partition_point(|constraint| constraint.at < next);
            }
        }
        let mut returned = false;
        while let Some(run) = self.todo.pop() {
            for &target in lines.jumps(run) {
                if target >= points {
                    returned = true;
                } else if !self.reached.has(target) {
                    if let Some(inside) = sub.run_from(target).filter(|run| run.first <= target) {
                        self.enter(lines, inside, target);
                    }
                }
            }
        }
        if returned {
            for run in &sub.0[sub.ends_from(points)..] {
                self.reached.insert(Run { first: run.first.max(points), last: run.last });
            }
        }
    }
}

/// The constraints by sub-region, then by super-region, then by point, and where those of each
/// sub-region begin.
pub fn index_of(problem: &Problem) -> (Vec<Constraint>, Vec<u32>) {
    let mut constraints = problem.constraints.clone();
    let key = |c: &Constraint| (c.sub, c.sup, c.at);
    if !constraints.is_sorted_by_key(key) {
        constraints.sort_unstable_by_key(key);
    }
    let mut starts = vec![0; problem.regions() as usize + 1];
    for constraint in &constraints {
        starts[constraint.sub as usize + 1] += 1;
    }
    for region in 1..starts.len() {
        starts[region] += starts[region - 1];
    }
    (constraints, starts)
}

/// The values of just the base elements.
fn base_values(problem: &Problem) -> Vec<Runs> {
    let mut values = vec![Runs::default(); problem.regions() as usize];
    for region in 0..problem.universals {
        let value = &mut values[region as usize];
        value.insert(Run { first: 0, last: problem.points - 1 });
        let end = problem.points + region;
        value.insert(Run { first: end, last: end });
    }
    for (region, runs) in problem.bases.iter().enumerate() {
        for &run in runs {
            values[region].insert(run);
        }
    }
    values
}

/// The values of all regions in region order.
pub fn solve(problem: &Problem) -> Vec<Runs> {
    let lines = Lines::of(problem);
    let mut values = base_values(problem);
    let order = order_of(problem);
    let (constraints, starts) = index_of(problem);
    let mut marks = vec![true; values.len()];
    let mut walk = Walk::default();
    let mut again = true;
    while again {
        again = false;
        for &sub in &order {
            if !std::mem::take(&mut marks[sub as usize]) {
                continue;
            }
            let read = starts[sub as usize] as usize..starts[sub as usize + 1] as usize;
            for pair in constraints[read].chunk_by(|a, b| a.sup == b.sup) {
                let sup = pair[0].sup;
                if sup == sub {
                    continue;
                }
                walk.reach(&lines, &values[sub as usize], pair);
                let mut new = false;
                for &run in &walk.reached.0 {
                    new |= values[sup as usize].insert(run);
                }
                marks[sup as usize] |= new;
                again |= new;
            }
        }
    }
    values
}
