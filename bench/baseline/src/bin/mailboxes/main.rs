//! Growths from one thread to another in plain Rust, without any proof: the partner of
//! `mail_program` in measurements.
//!
//! `mailboxes ring|one-order|channel GROWTHS` posts so many growths in one thread and takes them in another, through a ring
//! on std's atomics, the same ring with sequentially consistent steps alone, as those of `RingMail` are, or a channel of std.
//! An end that finds the ring full, or nothing to take, leaves the processor once. Prints `delivered N micros M`; status 1
//! where a growth doesn't come or comes out of order.

mod ring;

use ring::{OneOrder, Order, Paired};
use std::process::exit;
use std::sync::mpsc;
use std::thread;
use std::time::Instant;

/// What one owner tells another.
#[derive(Clone, Copy, PartialEq, Eq)]
struct Growth {
    region: u32,
    element: u32,
    rank: u64,
}

/// The growth that is posted as the one of this number.
fn numbered(number: u64) -> Growth {
    Growth { region: 1, element: (number % 4096) as u32, rank: number.wrapping_add(1) }
}

/// The end that posts. A growth that isn't posted is posted again.
trait Posts: Send {
    fn post(&mut self, growth: Growth) -> bool;
}

/// The end that takes.
trait Takes: Send {
    fn take(&mut self) -> Option<Growth>;
}

impl<O: Order + Send> Posts for ring::Sender<Growth, O> {
    fn post(&mut self, growth: Growth) -> bool {
        ring::Sender::post(self, growth).is_ok()
    }
}

impl<O: Order + Send> Takes for ring::Receiver<Growth, O> {
    fn take(&mut self) -> Option<Growth> {
        ring::Receiver::take(self)
    }
}

impl Posts for mpsc::Sender<Growth> {
    fn post(&mut self, growth: Growth) -> bool {
        self.send(growth).is_ok()
    }
}

impl Takes for mpsc::Receiver<Growth> {
    fn take(&mut self) -> Option<Growth> {
        self.try_recv().ok()
    }
}

/// Posts so many growths.
fn post_all(mut sender: impl Posts, growths: u64) {
    let mut number = 0;
    while number < growths {
        if sender.post(numbered(number)) {
            number += 1;
        } else {
            thread::yield_now();
        }
    }
}

/// Takes so many growths. Whether they came in order.
fn take_all(mut receiver: impl Takes, growths: u64) -> bool {
    let mut count = 0;
    let mut in_order = true;
    while count < growths {
        match receiver.take() {
            Some(growth) => {
                in_order = in_order && growth == numbered(count);
                count += 1;
            }
            None => thread::yield_now(),
        }
    }
    in_order
}

/// Has two threads post and take, and prints what that took.
fn deliver((sender, receiver): (impl Posts, impl Takes), growths: u64) -> bool {
    let start = Instant::now();
    let in_order = thread::scope(|scope| {
        let other = scope.spawn(move || post_all(sender, growths));
        let in_order = take_all(receiver, growths);
        other.join().expect("no sender panics");
        in_order
    });
    println!("delivered {growths} micros {}", start.elapsed().as_micros());
    in_order
}

fn main() {
    let words: Vec<String> = std::env::args().skip(1).collect();
    let growths = words.get(1).and_then(|word| word.parse::<u32>().ok()).map(u64::from);
    let in_order = match (words.first().map(String::as_str), growths) {
        (Some("ring"), Some(growths)) => deliver(ring::ring::<_, Paired>(), growths),
        (Some("one-order"), Some(growths)) => deliver(ring::ring::<_, OneOrder>(), growths),
        (Some("channel"), Some(growths)) => deliver(mpsc::channel(), growths),
        _ => {
            eprintln!("usage: mailboxes ring|one-order|channel GROWTHS");
            exit(2)
        }
    };
    exit(if in_order { 0 } else { 1 })
}
