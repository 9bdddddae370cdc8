//! Solving by owners in threads of their own: the partner of `nllc`'s owners on threads.
//!
//! Each ordered pair of owners has a channel. An owner looks into its channels one after another
//! and takes at most one growth out of each. Before it posts what came of a growth, it owes for
//! all of that, and clears the growth afterwards. It leaves once nothing is found and the balance is 0.

use crate::ground::Ground;
use crate::owner::{Growth, Owner};
use crate::runs::Runs;
use std::hint::spin_loop;
use std::io::{self, Write};
use std::sync::atomic::{AtomicU64, Ordering};
use std::sync::mpsc::{channel, Receiver, Sender};
use std::thread;

/// An owner at work, and its ends of the channels, by the other owner.
struct Worker<'b, 'g> {
    owner: Owner<'g>,
    /// How much is owed for and not cleared.
    balance: &'b AtomicU64,
    senders: Vec<Sender<Growth>>,
    receivers: Vec<Receiver<Growth>>,
}

impl<'g> Worker<'_, 'g> {
    /// Owes for all that others are still to be told, posts it, and clears the item of this turn.
    fn share_out(&mut self) {
        let unsent = self.owner.unsent();
        if unsent > 0 {
            self.balance.fetch_add(unsent, Ordering::SeqCst);
            for (to, sender) in self.senders.iter().enumerate() {
                while let Some(growth) = self.owner.outgoing(to as u16) {
                    sender.send(growth).expect("no owner leaves while growths are owed for");
                }
            }
        }
        self.balance.fetch_sub(1, Ordering::SeqCst);
    }

    /// One look into each channel; each growth is a turn. Whether there was one.
    fn round(&mut self) -> bool {
        let mut heard = false;
        for from in 0..self.receivers.len() {
            if let Ok(growth) = self.receivers[from].try_recv() {
                self.owner.receive(from as u16, growth);
                self.share_out();
                heard = true;
            }
        }
        heard
    }

    /// Loads the owner, and works until nothing is under way.
    fn work(mut self) -> Owner<'g> {
        self.owner.load();
        self.share_out();
        let mut waits = 0;
        loop {
            if self.round() {
                waits = 0;
            } else if self.balance.load(Ordering::SeqCst) == 0 {
                return self.owner;
            } else {
                wait(waits);
                waits += 1;
            }
        }
    }
}

/// Waits a little, longer the more often it waited before, at last by leaving the processor.
fn wait(waits: u32) {
    if waits > 6 {
        thread::yield_now();
    } else {
        (0..1 << waits).for_each(|_| spin_loop());
    }
}

/// The ends of the channels between so many owners: for each owner those that it posts to, and
/// those that it takes from.
fn channels(count: usize) -> (Vec<Vec<Sender<Growth>>>, Vec<Vec<Receiver<Growth>>>) {
    let mut receivers: Vec<Vec<Receiver<Growth>>> = (0..count).map(|_| Vec::new()).collect();
    let mut senders = Vec::with_capacity(count);
    for _ in 0..count {
        let row = receivers.iter_mut().map(|receivers| {
            let (sender, receiver) = channel();
            receivers.push(receiver);
            sender
        });
        senders.push(row.collect());
    }
    (senders, receivers)
}

/// The owners of a problem once nothing is left to do, each of which worked in its thread.
pub fn solve<'g>(ground: &'g Ground<'g>) -> Vec<Owner<'g>> {
    let count = ground.cut.owners;
    let balance = AtomicU64::new(u64::from(count));
    let (senders, receivers) = channels(usize::from(count));
    thread::scope(|scope| {
        let balance = &balance;
        let ends = senders.into_iter().zip(receivers);
        let threads: Vec<_> = (0..count)
            .zip(ends)
            .map(|(me, (senders, receivers))| {
                scope.spawn(move || {
                    let owner = Owner::new(ground, me);
                    Worker { owner, balance, senders, receivers }.work()
                })
            })
            .collect();
        threads.into_iter().map(|thread| thread.join().expect("no owner panics")).collect()
    })
}

/// The values of all regions, in region order.
pub fn values<'o>(ground: &Ground, owners: &'o [Owner]) -> Vec<&'o Runs> {
    (0..ground.problem.regions())
        .map(|region| owners[usize::from(ground.cut.owner_of(region))].value(region))
        .collect()
}

/// How much grew, and how much was received.
pub fn counts(owners: &[Owner], out: &mut impl Write) -> io::Result<()> {
    let grown: usize = owners.iter().map(|owner| owner.log.len()).sum();
    let received: usize = owners.iter().map(Owner::received_count).sum();
    writeln!(out, "grown {grown} received {received}")
}
