//! Solving by owners of regions that one thread drives: the partner of `nllc`'s owners.

use crate::cut::Cut;
use crate::ground::Ground;
use crate::owner::{Growth, Owner};
use crate::problem::Problem;
use crate::runs::{self, Runs};
use std::io::{self, Write};
use std::mem::take;

/// Owners, and for each of them what the others posted to it and how much that is.
struct Network<'g> {
    owners: Vec<Owner<'g>>,
    inboxes: Vec<Vec<Vec<Growth>>>,
    waiting: Vec<usize>,
}

impl<'g> Network<'g> {
    fn of(ground: &'g Ground<'g>) -> Network<'g> {
        let count = ground.cut.owners as usize;
        let owners = (0..ground.cut.owners).map(|me| Owner::new(ground, me)).collect();
        Network { owners, inboxes: vec![vec![Vec::new(); count]; count], waiting: vec![0; count] }
    }

    /// Posts all that an owner has for the others.
    fn post(&mut self, from: usize) {
        for to in 0..self.owners.len() {
            while let Some(growth) = self.owners[from].outgoing(to as u16) {
                self.inboxes[to][from].push(growth);
                self.waiting[to] += 1;
            }
        }
    }

    /// A turn of an owner: it receives all that the others posted, and posts all that it has for them.
    /// Whether something was posted to it.
    fn turn(&mut self, to: usize) -> bool {
        if take(&mut self.waiting[to]) == 0 {
            return false;
        }
        for from in 0..self.owners.len() {
            let mut inbox = take(&mut self.inboxes[to][from]);
            for &growth in &inbox {
                self.owners[to].receive(from as u16, growth);
            }
            inbox.clear();
            self.inboxes[to][from] = inbox;
        }
        self.post(to);
        true
    }

    /// Has the owners take turns until nothing is under way. The number of rounds.
    fn settle(&mut self) -> u64 {
        let count = self.owners.len();
        (0..count).for_each(|from| self.post(from));
        let mut rounds = 0;
        loop {
            let mut moved = false;
            for me in 0..count {
                moved |= self.turn(me);
            }
            if !moved {
                return rounds;
            }
            rounds += 1;
        }
    }

    /// Whether the owners have these values.
    fn has(&self, ground: &Ground, values: &[Runs]) -> bool {
        let regions = 0..ground.problem.regions();
        regions.zip(values).all(|(region, value)| {
            self.owners[ground.cut.owner_of(region) as usize].value(region) == value
        })
    }
}

/// A number that looks random, the same as that of `owner_program`.
fn mixed(number: u64) -> u64 {
    let once = (number ^ number >> 30).wrapping_mul(0xbf58_476d_1ce4_e5b9);
    let twice = (once ^ once >> 27).wrapping_mul(0x94d0_49bb_1331_11eb);
    twice ^ twice >> 31
}

/// A digest of the growths of logs, in any order.
fn digest(owners: &[Owner]) -> u64 {
    let growths = owners.iter().flat_map(|owner| &owner.log);
    growths
        .map(|growth| mixed(u64::from(growth.region) << 32 | u64::from(growth.element)))
        .fold(0, u64::wrapping_add)
}

#[repr(C)]
struct Time {
    seconds: i64,
    nanos: i64,
}

extern "C" {
    fn clock_gettime(clock: i32, time: *mut Time) -> i32;
}

/// The clock of Linux that counts the processor time of the process.
const PROCESS_TIME: i32 = 2;

/// The microseconds of processor time so far.
fn micros() -> i64 {
    let mut time = Time { seconds: 0, nanos: 0 };
    // SAFETY: the call writes the time of a clock that there is.
    unsafe { clock_gettime(PROCESS_TIME, &mut time) };
    time.seconds * 1_000_000 + time.nanos / 1_000
}

/// The microseconds since a moment, which is moved to now.
fn lap(since: &mut i64) -> i64 {
    let now = micros();
    let passed = now - *since;
    *since = now;
    passed
}

/// Solves by owners, compares their values with those of the solver, and tells what it took in the
/// words of `owner_program`. The status is 1 where the values differ.
pub fn report(problem: &Problem, owners: u16, out: &mut impl Write) -> io::Result<i32> {
    let mut since = micros();
    let ground = Ground::of(problem, Cut::round(problem.regions(), owners));
    let mut network = Network::of(&ground);
    let make = lap(&mut since);
    network.owners.iter_mut().for_each(Owner::load);
    let load = lap(&mut since);
    let rounds = network.settle();
    let turns = lap(&mut since);
    let values = runs::solve(problem);
    let solve = lap(&mut since);
    writeln!(
        out,
        "elements {} received {} digest {} make {make} rounds {rounds} load {load} turns {turns} \
         solve {solve}",
        network.owners.iter().map(|owner| owner.log.len()).sum::<usize>(),
        network.owners.iter().map(Owner::received_count).sum::<usize>(),
        digest(&network.owners),
    )?;
    Ok(i32::from(!network.has(&ground, &values)))
}
