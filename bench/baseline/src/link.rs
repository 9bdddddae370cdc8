//! The constraints of a pair of regions, and what their walks have reached.

use crate::ground::Ground;
use crate::runs::{enter, Run, Runs};
use std::ops::Range;

/// The constraints that let an own region hold what is reached inside another region. A walk goes on
/// through all that is known of that region; an element that comes into it is looked at later. At all
/// points what comes into it is what is reached.
pub struct Link {
    pub sup: u32,
    /// Where the own region's value stands.
    pub slot: u32,
    first: u32,
    end: u32,
    /// Whether one of them holds at all points.
    pub everywhere: bool,
    /// Whether the own region had all of the other one (`rounds`).
    pub rests: bool,
    /// Whether a return point is reached.
    returned: bool,
    pub reached: Runs,
}

impl Link {
    pub fn new(sup: u32, slot: u32, places: Range<usize>, everywhere: bool) -> Link {
        let (first, end) = (places.start as u32, places.end as u32);
        Link { sup, slot, first, end, everywhere, rests: false, returned: false, reached: Runs::default() }
    }

    /// Where its constraints stand.
    pub fn places(&self) -> Range<usize> {
        self.first as usize..self.end as usize
    }

    /// Goes on once a run is known of the region that is read. Puts the runs of what is newly reached
    /// into an empty list.
    pub fn resume(&mut self, ground: &Ground, known: &Runs, run: Run, found: &mut Vec<Run>) {
        if self.everywhere {
            self.reached.insert_new(run, found);
            return;
        }
        let points = ground.points();
        let mut returned = false;
        if run.first < points {
            let part = Run { first: run.first, last: run.last.min(points - 1) };
            self.enter_part(ground, known, part, found);
            returned = self.spread(ground, known, found);
        }
        if returned || (self.returned && run.last >= points) {
            self.returned = true;
            for &end in &known.0[known.ends_from(points)..] {
                let end = Run { first: end.first.max(points), last: end.last };
                self.reached.insert_new(end, found);
            }
        }
    }

    /// Enters the points of a run at which a walk begins, or to which a step leads from what is reached.
    fn enter_part(&mut self, ground: &Ground, known: &Runs, part: Run, found: &mut Vec<Run>) {
        let Some(inside) = known.run_from(part.first) else {
            return;
        };
        self.enter_next(ground, inside, part, found);
        for constraint in ground.asking_in(self.places(), part) {
            enter(&ground.lines, inside, constraint.at, &mut self.reached, found);
        }
        for &(point, from) in ground.landing_in(part) {
            if self.reached.has(from) {
                enter(&ground.lines, inside, point, &mut self.reached, found);
            }
        }
    }

    /// Enters the points of a run to which their line leads from the point before, which is reached.
    fn enter_next(&mut self, ground: &Ground, inside: Run, part: Run, found: &mut Vec<Run>) {
        let mut from = part.first.saturating_sub(1);
        while let Some(run) = self.reached.run_from(from) {
            let last = run.last;
            if run.first > part.last || last >= part.last {
                return;
            }
            if ground.lines.ends[last as usize] > last {
                enter(&ground.lines, inside, last + 1, &mut self.reached, found);
            }
            from = last + 1;
        }
    }

    /// Follows the stretches of a list, to the end of it. Whether a return point is among them.
    fn spread(&mut self, ground: &Ground, known: &Runs, found: &mut Vec<Run>) -> bool {
        let mut returned = false;
        let mut done = 0;
        while let Some(&run) = found.get(done) {
            done += 1;
            for &target in ground.lines.jumps(run) {
                if target >= ground.points() {
                    returned = true;
                } else if !self.reached.has(target) {
                    if let Some(inside) = known.run_from(target).filter(|run| run.first <= target) {
                        enter(&ground.lines, inside, target, &mut self.reached, found);
                    }
                }
            }
        }
        returned
    }
}
