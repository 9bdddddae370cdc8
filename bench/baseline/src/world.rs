//! Owners at work, one event after another, with lists for the mailboxes and a number for the balance: the partner
//! of `nllc replay`.

use crate::ground::Ground;
use crate::owner::{Growth, Owner};
use crate::runs::Runs;
use crate::schedule::Event;
use std::collections::VecDeque;

/// The growths on their way from one owner to another, the oldest first.
#[derive(Default)]
pub struct Lane {
    /// Those that aren't owed for yet.
    fresh: VecDeque<Growth>,
    /// Those that are owed for and not yet sent.
    pub out: VecDeque<Growth>,
    /// Those in the box.
    pub boxed: VecDeque<Growth>,
}

/// What an owner works on.
#[derive(Clone, Copy, PartialEq, Eq)]
pub enum Item {
    Nothing,
    Fresh,
    Owed,
}

/// An owner, what it works on, whether it has left, and its lane to each owner.
pub struct Seat<'g> {
    owner: Owner<'g>,
    pub loaded: bool,
    pub item: Item,
    pub left: bool,
    pub lanes: Vec<Lane>,
}

impl Seat<'_> {
    fn is_free(&self) -> bool {
        self.loaded && self.item == Item::Nothing && !self.left
    }

    /// Whether nothing that is owed for waits to be sent.
    fn has_sent(&self) -> bool {
        self.lanes.iter().all(|lane| lane.out.is_empty())
    }

    /// All that the owner has for the others is fresh, and so is its item.
    fn fill(&mut self) {
        for (to, lane) in self.lanes.iter_mut().enumerate() {
            while let Some(growth) = self.owner.outgoing(to as u16) {
                lane.fresh.push_back(growth);
            }
        }
        self.item = Item::Fresh;
    }
}

/// What an event answers.
#[derive(Clone, Copy, PartialEq, Eq)]
pub enum Step {
    Done,
    Quiet,
    Open,
    NotNow,
}

/// The owners of a problem, what is under way between them, and the balance.
pub struct World<'g> {
    pub seats: Vec<Seat<'g>>,
    pub balance: u64,
}

impl<'g> World<'g> {
    pub fn of(ground: &'g Ground<'g>) -> World<'g> {
        let owners = ground.cut.owners;
        let seats = (0..owners).map(|me| Seat {
            owner: Owner::new(ground, me),
            loaded: false,
            item: Item::Nothing,
            left: false,
            lanes: (0..owners).map(|_| Lane::default()).collect(),
        });
        World { seats: seats.collect(), balance: u64::from(owners) }
    }

    /// Does what an event does, where it is possible, and answers it.
    pub fn step(&mut self, event: Event) -> Step {
        let done = match event {
            Event::Load(i) => self.load(i as usize),
            Event::Take(i, j) => self.take(i as usize, j as usize),
            Event::Owe(i) => self.owe(i as usize),
            Event::Clear(i) => self.clear(i as usize),
            Event::Push(i, j) => self.push(i as usize, j as usize),
            Event::Leave(i) => return self.leave(i as usize),
        };
        done.map_or(Step::NotNow, |()| Step::Done)
    }

    fn load(&mut self, i: usize) -> Option<()> {
        let seat = &mut self.seats[i];
        (!seat.loaded).then(|| {
            seat.owner.load_in_rounds();
            seat.loaded = true;
            seat.fill();
        })
    }

    fn take(&mut self, i: usize, j: usize) -> Option<()> {
        if i == j || !self.seats[i].is_free() {
            return None;
        }
        let growth = self.seats[j].lanes[i].boxed.pop_front()?;
        self.seats[i].owner.receive_in_rounds(j as u16, growth);
        self.seats[i].fill();
        Some(())
    }

    fn owe(&mut self, i: usize) -> Option<()> {
        let seat = &mut self.seats[i];
        (seat.item == Item::Fresh).then(|| {
            for lane in &mut seat.lanes {
                self.balance += lane.fresh.len() as u64;
                lane.out.append(&mut lane.fresh);
            }
            seat.item = Item::Owed;
        })
    }

    fn clear(&mut self, i: usize) -> Option<()> {
        let seat = &mut self.seats[i];
        (seat.item == Item::Owed).then(|| {
            self.balance -= 1;
            seat.item = Item::Nothing;
        })
    }

    fn push(&mut self, i: usize, j: usize) -> Option<()> {
        let lane = &mut self.seats[i].lanes[j];
        let growth = lane.out.pop_front()?;
        lane.boxed.push_back(growth);
        Some(())
    }

    fn leave(&mut self, i: usize) -> Step {
        let seat = &mut self.seats[i];
        if !seat.is_free() || !seat.has_sent() {
            return Step::NotNow;
        }
        if self.balance > 0 {
            return Step::Open;
        }
        seat.left = true;
        Step::Quiet
    }

    /// The values that the owners have, in region order.
    pub fn values(&self, ground: &Ground) -> Vec<&Runs> {
        let owner_of = |region| &self.seats[usize::from(ground.cut.owner_of(region))].owner;
        (0..ground.problem.regions()).map(|region| owner_of(region).value(region)).collect()
    }
}
