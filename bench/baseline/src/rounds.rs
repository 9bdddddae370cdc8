//! Owners that grow in the order in which those of `nllc` do: what a replayed schedule shows rests on it.
//!
//! An owner follows up its log in rounds: all that came since the round before, by region and then by element, is handed
//! together to the links that read the region. A link rests where its region has all that the other one has.

use crate::ground::Ground;
use crate::link::Link;
use crate::owner::{Growth, Owner};
use crate::runs::{Run, Runs};
use std::mem::take;

/// A set of more runs isn't compared with another one.
const MOST_RUNS: usize = 64;

/// A run of elements that came into a region.
#[derive(Clone, Copy)]
struct Told {
    region: u32,
    run: Run,
}

/// What growths tell, as runs by region and ascending; runs that touch are one.
fn gather(growths: &[Growth]) -> Vec<Told> {
    let mut each: Vec<(u32, u32)> = growths.iter().map(|growth| (growth.region, growth.element)).collect();
    each.sort_unstable();
    let mut told: Vec<Told> = Vec::new();
    for (region, element) in each {
        match told.last_mut() {
            Some(Told { region: other, run }) if *other == region && run.last + 1 == element => run.last = element,
            _ => told.push(Told { region, run: Run { first: element, last: element } }),
        }
    }
    told
}

fn has_whole(set: &Runs, run: Run) -> bool {
    set.run_from(run.first).is_some_and(|other| other.first <= run.first && run.last <= other.last)
}

impl Link {
    /// Whether nothing is reached yet, and no constraint asks for anything from a point of the run.
    fn is_idle(&self, ground: &Ground, run: Run) -> bool {
        !self.everywhere && self.reached.0.is_empty() && ground.asking_in(self.places(), run).is_empty()
    }
}

impl Owner<'_> {
    /// Enters the base elements, and grows until nothing is left to do.
    pub fn load_in_rounds(&mut self) {
        self.enter_bases();
        self.settle_in_rounds();
    }

    /// Enters a growth of another owner, and grows until nothing is left to do.
    pub fn receive_in_rounds(&mut self, from: u16, growth: Growth) {
        self.enter(from, growth);
        self.follow_told(&gather(&[growth]));
        self.settle_in_rounds();
    }

    fn settle_in_rounds(&mut self) {
        while self.followed < self.log.len() {
            let told = gather(&self.log[self.followed..]);
            self.followed = self.log.len();
            self.follow_told(&told);
        }
        self.queue();
    }

    fn follow_told(&mut self, told: &[Told]) {
        for of_region in told.chunk_by(|one, other| one.region == other.region) {
            let slot = self.slots[of_region[0].region as usize];
            for number in self.starts[slot as usize]..self.starts[slot as usize + 1] {
                self.advance(slot, number as usize, of_region);
            }
        }
    }

    /// Whether the region of a link has all that the other one has. Where the link rests, it had all but the runs.
    fn may_rest(&self, slot: u32, link: &Link, told: &[Told]) -> bool {
        let (inside, own) = (&self.values[slot as usize], &self.values[link.slot as usize]);
        if link.rests {
            return told.iter().all(|told| has_whole(own, told.run));
        }
        inside.0.len() <= MOST_RUNS && inside.0.iter().all(|&run| has_whole(own, run))
    }

    /// Lets a link go on from runs; where it rested, from all of the region that it reads.
    fn advance(&mut self, slot: u32, number: usize, told: &[Told]) {
        let link = &self.links[number];
        if !link.rests && told.iter().all(|told| link.is_idle(self.ground, told.run)) {
            return;
        }
        if self.may_rest(slot, link, told) {
            self.links[number].rests = true;
            return;
        }
        let runs: Vec<Run> = if take(&mut self.links[number].rests) {
            self.values[slot as usize].0.clone()
        } else {
            told.iter().map(|told| told.run).collect()
        };
        for run in runs {
            self.hand(slot, number, run);
        }
    }

    fn hand(&mut self, slot: u32, number: usize, run: Run) {
        let mut found = take(&mut self.found);
        let link = &mut self.links[number];
        if !link.is_idle(self.ground, run) && (link.everywhere || !has_whole(&link.reached, run)) {
            link.resume(self.ground, &self.values[slot as usize], run, &mut found);
        }
        let (sup, to) = (link.sup, link.slot);
        self.grow_all(sup, to, &mut found);
        self.found = found;
    }
}
