//! Schedules as owners in threads might run: the partner's own ones, for measurements.

use crate::ground::Ground;
use crate::schedule::Event;
use crate::world::{Item, World};
use std::io::{self, Write};

/// Numbers that look random, the same for each seed.
struct Numbers(u64);

impl Numbers {
    fn next(&mut self) -> u64 {
        self.0 = self.0.wrapping_add(0x9E37_79B9_7F4A_7C15);
        let once = (self.0 ^ self.0 >> 30).wrapping_mul(0xBF58_476D_1CE4_E5B9);
        let twice = (once ^ once >> 27).wrapping_mul(0x94D0_49BB_1331_11EB);
        twice ^ twice >> 31
    }

    /// A number below another.
    fn below(&mut self, count: u64) -> u64 {
        self.next() % count
    }
}

/// So many times an owner that finds nothing to do is passed over before it looks at the balance.
const PASSED_OVER: u64 = 16;

/// Owners that take turns at random, an event each.
struct Driver<'g> {
    world: World<'g>,
    numbers: Numbers,
    /// For each owner the box into which it looks next.
    looks: Vec<u16>,
}

impl Driver<'_> {
    /// What an owner does next: it sends all that it owes for before it is done with its item, and takes from the
    /// boxes in turn. None where it has left, or is to wait.
    fn next_of(&mut self, me: u16) -> Option<Event> {
        let seat = &self.world.seats[usize::from(me)];
        if !seat.loaded {
            return Some(Event::Load(me));
        }
        if seat.item == Item::Fresh {
            return Some(Event::Owe(me));
        }
        if let Some(to) = seat.lanes.iter().position(|lane| !lane.out.is_empty()) {
            return Some(Event::Push(me, to as u16));
        }
        if seat.item == Item::Owed {
            return Some(Event::Clear(me));
        }
        if seat.left {
            return None;
        }
        let owners = self.looks.len() as u16;
        let first = self.looks[usize::from(me)];
        let mut boxes = (0..owners).map(|number| (first + number) % owners);
        let from = boxes.find(|&from| !self.world.seats[usize::from(from)].lanes[usize::from(me)].boxed.is_empty());
        if let Some(from) = from {
            self.looks[usize::from(me)] = (from + 1) % owners;
            return Some(Event::Take(me, from));
        }
        let looks = self.world.balance == 0 || self.numbers.below(PASSED_OVER) == 0;
        looks.then_some(Event::Leave(me))
    }

    /// The next event; none where all owners have left.
    fn next(&mut self) -> Option<Event> {
        let owners = self.looks.len() as u64;
        while self.world.seats.iter().any(|seat| !seat.left) {
            let me = self.numbers.below(owners) as u16;
            if let Some(event) = self.next_of(me) {
                self.world.step(event);
                return Some(event);
            }
        }
        None
    }
}

/// The events of a run to its end, or so many.
fn run(ground: &Ground, count: usize) -> Vec<Event> {
    let looks = vec![0; usize::from(ground.cut.owners)];
    let mut driver = Driver { world: World::of(ground), numbers: Numbers(1), looks };
    std::iter::from_fn(|| driver.next()).take(count).collect()
}

/// Writes a schedule of so many events. Where a run has fewer, owners look at the balance evenly between them.
pub fn write(ground: &Ground, count: usize, out: &mut impl Write) -> io::Result<()> {
    let run = run(ground, count);
    let more = count - run.len();
    let (mut numbers, mut written) = (Numbers(2), 0);
    writeln!(out, "nll-schedule 1")?;
    for (place, event) in run.iter().enumerate() {
        while written * run.len() < more * (place + 1) {
            Event::Leave(numbers.below(u64::from(ground.cut.owners)) as u16).write(out)?;
            written += 1;
        }
        event.write(out)?;
    }
    Ok(())
}
