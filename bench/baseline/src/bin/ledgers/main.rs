//! What owners in threads owe and clear in plain Rust, without any proof: the partner of
//! `ledger_program` in measurements.
//!
//! `ledgers words|lock THREADS ROUNDS` has so many threads owe 1, clear 1 and ask to leave, so often each, on two atomic
//! words, or on two numbers under a lock of std. Each thread owes 1 more all the while, so none of them may leave. Prints
//! `calls N micros M`; status 1 where one might have left.

use std::process::exit;
use std::sync::atomic::{AtomicBool, AtomicU64, Ordering};
use std::sync::Mutex;
use std::thread;
use std::time::Instant;

/// How an owner leaves, or that it may not yet.
#[derive(PartialEq, Eq)]
enum Leave {
    Quiet,
    Stopped,
    Open,
}

/// A book of what owners owe and have cleared.
trait Book: Sync {
    fn owe(&self, amount: u64);
    fn clear(&self, amount: u64);
    fn leave(&self) -> Leave;
}

/// A book of two atomic words: the balance, and whether all are to stop.
struct Words {
    balance: AtomicU64,
    stop: AtomicBool,
}

impl Book for Words {
    fn owe(&self, amount: u64) {
        self.balance.fetch_add(amount, Ordering::SeqCst);
    }

    fn clear(&self, amount: u64) {
        self.balance.fetch_sub(amount, Ordering::SeqCst);
    }

    fn leave(&self) -> Leave {
        if self.stop.load(Ordering::SeqCst) {
            return Leave::Stopped;
        }
        match self.balance.load(Ordering::SeqCst) {
            0 => Leave::Quiet,
            _ => Leave::Open,
        }
    }
}

/// The balance and the flag under a lock.
struct Locked(Mutex<(u64, bool)>);

impl Book for Locked {
    fn owe(&self, amount: u64) {
        self.0.lock().expect("no owner panics").0 += amount;
    }

    fn clear(&self, amount: u64) {
        self.0.lock().expect("no owner panics").0 -= amount;
    }

    fn leave(&self) -> Leave {
        match *self.0.lock().expect("no owner panics") {
            (_, true) => Leave::Stopped,
            (0, _) => Leave::Quiet,
            _ => Leave::Open,
        }
    }
}

/// What an owner owed and cleared itself.
#[derive(Default)]
struct Account {
    owed: u64,
    cleared: u64,
}

/// Owes, clears and asks to leave so often. How often that wasn't allowed.
fn work(book: &impl Book, rounds: u64) -> (Account, u64) {
    let mut account = Account { owed: 1, cleared: 0 };
    for round in 0..rounds {
        book.owe(1);
        account.owed += 1;
        book.clear(1);
        account.cleared += 1;
        if book.leave() != Leave::Open {
            return (account, round);
        }
    }
    (account, rounds)
}

/// Has so many threads work, and prints what that took. Whether none might leave.
fn share(book: impl Book, threads: u64, rounds: u64) -> bool {
    let start = Instant::now();
    let told: Vec<(Account, u64)> = thread::scope(|scope| {
        let started: Vec<_> =
            (0..threads).map(|_| scope.spawn(|| work(&book, rounds))).collect();
        started.into_iter().map(|thread| thread.join().expect("no owner panics")).collect()
    });
    let micros = start.elapsed().as_micros();
    let calls: u64 = told.iter().map(|(_, open)| 3 * open).sum();
    println!("calls {calls} micros {micros}");
    let owed: u64 = told.iter().map(|(account, _)| account.owed - account.cleared).sum();
    calls == 3 * threads * rounds && owed == threads
}

fn main() {
    let words: Vec<String> = std::env::args().skip(1).collect();
    let number = |place: usize| words.get(place)?.parse::<u32>().ok().map(u64::from);
    let stayed = match (words.first().map(String::as_str), number(1), number(2)) {
        (Some("words"), Some(threads), Some(rounds)) => {
            let (balance, stop) = (AtomicU64::new(threads), AtomicBool::new(false));
            share(Words { balance, stop }, threads, rounds)
        }
        (Some("lock"), Some(threads), Some(rounds)) => {
            share(Locked(Mutex::new((threads, false))), threads, rounds)
        }
        _ => {
            eprintln!("usage: ledgers words|lock THREADS ROUNDS");
            exit(2)
        }
    };
    exit(if stayed { 0 } else { 1 })
}
