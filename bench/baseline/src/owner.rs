//! An owner of some regions: their values, copies of the regions that it reads, and a log of growths.

use crate::ground::Ground;
use crate::link::Link;
use crate::problem::ALL;
use crate::runs::{Run, Runs};
use std::collections::VecDeque;
use std::mem::take;
use std::ops::Range;

/// An element that came into a value. It has 16 bytes.
#[derive(Clone, Copy)]
pub struct Growth {
    pub region: u32,
    pub element: u32,
    pub rank: u64,
}

/// No slot.
const NONE: u32 = u32::MAX;

pub struct Owner<'g> {
    pub ground: &'g Ground<'g>,
    me: u16,
    /// For each region where its value or its copy stands.
    pub slots: Vec<u32>,
    pub values: Vec<Runs>,
    /// By the slot of the region that they read.
    pub links: Vec<Link>,
    pub starts: Vec<u32>,
    pub log: Vec<Growth>,
    pub received: Vec<Vec<Growth>>,
    /// For each owner the places in the log of what it's still to be told.
    outboxes: Vec<VecDeque<Range<usize>>>,
    /// How many growths these are.
    unsent: u64,
    clock: u64,
    /// How far in the log growths were followed up, and put into the outboxes.
    pub followed: usize,
    queued: usize,
    pub found: Vec<Run>,
    new: Vec<Run>,
}

impl<'g> Owner<'g> {
    pub fn new(ground: &'g Ground<'g>, me: u16) -> Owner<'g> {
        let mut owner = Owner {
            ground,
            me,
            slots: vec![NONE; ground.problem.regions() as usize],
            values: Vec::new(),
            links: Vec::new(),
            starts: vec![0],
            log: Vec::new(),
            received: vec![Vec::new(); ground.cut.owners as usize],
            outboxes: vec![VecDeque::new(); ground.cut.owners as usize],
            unsent: 0,
            clock: 0,
            followed: 0,
            queued: 0,
            found: Vec::new(),
            new: Vec::new(),
        };
        let known: Vec<u32> = (0..ground.problem.regions())
            .filter(|&region| owner.owns(region) || ground.readers[region as usize] >> me & 1 == 1)
            .collect();
        for (slot, &region) in known.iter().enumerate() {
            owner.slots[region as usize] = slot as u32;
        }
        owner.values.resize(known.len(), Runs::default());
        for &region in &known {
            owner.add_links(region);
            owner.starts.push(owner.links.len() as u32);
        }
        owner
    }

    fn owns(&self, region: u32) -> bool {
        self.ground.cut.owner_of(region) == self.me
    }

    /// Adds a link for each own region that constraints fill from a region.
    fn add_links(&mut self, sub: u32) {
        let mut places = self.ground.reading(sub);
        while !places.is_empty() {
            let first = places.start;
            let sup = self.ground.constraint(first).sup;
            while !places.is_empty() && self.ground.constraint(places.start).sup == sup {
                places.start += 1;
            }
            if sup != sub && self.owns(sup) {
                let everywhere = self.ground.constraint(places.start - 1).at == ALL;
                let slot = self.slots[sup as usize];
                self.links.push(Link::new(sup, slot, first..places.start, everywhere));
            }
        }
    }

    /// The value of an own region.
    pub fn value(&self, region: u32) -> &Runs {
        &self.values[self.slots[region as usize] as usize]
    }

    /// How many growths were received.
    pub fn received_count(&self) -> usize {
        self.received.iter().map(Vec::len).sum()
    }

    /// Enters the base elements, and grows until nothing is left to do.
    pub fn load(&mut self) {
        self.enter_bases();
        self.settle();
    }

    /// Enters the base elements.
    pub fn enter_bases(&mut self) {
        let problem = self.ground.problem;
        for region in 0..problem.regions() {
            if !self.owns(region) {
                continue;
            }
            let slot = self.slots[region as usize];
            if region < problem.universals {
                self.grow(region, slot, Run { first: 0, last: problem.points - 1 });
                let end = problem.points + region;
                self.grow(region, slot, Run { first: end, last: end });
            }
            for &run in &problem.bases[region as usize] {
                self.grow(region, slot, run);
            }
        }
    }

    /// Enters a growth of another owner, and grows until nothing is left to do.
    pub fn receive(&mut self, from: u16, growth: Growth) {
        let (slot, run) = self.enter(from, growth);
        self.follow(slot, run);
        self.settle();
    }

    /// Enters a growth of another owner: where its region's copy stands, and its element.
    pub fn enter(&mut self, from: u16, growth: Growth) -> (u32, Run) {
        self.received[from as usize].push(growth);
        self.clock = self.clock.max(growth.rank);
        let slot = self.slots[growth.region as usize];
        let run = Run { first: growth.element, last: growth.element };
        self.values[slot as usize].insert(run);
        (slot, run)
    }

    /// How many growths the others are still to be told, all together.
    pub fn unsent(&self) -> u64 {
        self.unsent
    }

    /// The next growth for another owner.
    pub fn outgoing(&mut self, to: u16) -> Option<Growth> {
        let outbox = &mut self.outboxes[to as usize];
        let places = outbox.front_mut()?;
        self.unsent -= 1;
        let growth = self.log[places.start];
        places.start += 1;
        if places.start == places.end {
            outbox.pop_front();
        }
        Some(growth)
    }

    /// Grows an own region by the elements of a run that are new.
    fn grow(&mut self, region: u32, slot: u32, run: Run) {
        self.new.clear();
        self.values[slot as usize].insert_new(run, &mut self.new);
        for run in &self.new {
            let clock = self.clock + 1;
            self.log.extend((run.first..=run.last).zip(clock..).map(|(element, rank)| Growth {
                region,
                element,
                rank,
            }));
            self.clock += u64::from(run.last - run.first + 1);
        }
    }

    /// Grows an own region by what a list has, and empties the list.
    pub fn grow_all(&mut self, region: u32, slot: u32, found: &mut Vec<Run>) {
        for &run in &*found {
            self.grow(region, slot, run);
        }
        found.clear();
    }

    /// Hands a run to the links that read its region, and grows what they newly reach.
    fn follow(&mut self, slot: u32, run: Run) {
        let mut found = take(&mut self.found);
        for number in self.starts[slot as usize]..self.starts[slot as usize + 1] {
            let link = &mut self.links[number as usize];
            link.resume(self.ground, &self.values[slot as usize], run, &mut found);
            let (sup, to) = (link.sup, link.slot);
            self.grow_all(sup, to, &mut found);
        }
        self.found = found;
    }

    /// Follows up the log to its end, a run at a time, and puts what is new of it into the outboxes.
    fn settle(&mut self) {
        while let Some(&Growth { region, element, .. }) = self.log.get(self.followed) {
            let first = element;
            let mut last = element;
            self.followed += 1;
            while let Some(next) = self.log.get(self.followed) {
                if next.region != region || next.element != last + 1 {
                    break;
                }
                last += 1;
                self.followed += 1;
            }
            self.follow(self.slots[region as usize], Run { first, last });
        }
        self.queue();
    }

    /// Puts the places of growths that aren't queued yet into the outboxes of those that read them.
    pub fn queue(&mut self) {
        while let Some(&Growth { region, .. }) = self.log.get(self.queued) {
            let first = self.queued;
            while self.log.get(self.queued).is_some_and(|growth| growth.region == region) {
                self.queued += 1;
            }
            let mut readers = self.ground.readers[region as usize];
            self.unsent += u64::from(readers.count_ones()) * (self.queued - first) as u64;
            while readers != 0 {
                self.outboxes[readers.trailing_zeros() as usize].push_back(first..self.queued);
                readers &= readers - 1;
            }
        }
    }
}
