//! A ring of 256 places for one thread that posts and one that takes.

use std::cell::UnsafeCell;
use std::marker::PhantomData;
use std::mem::MaybeUninit;
use std::sync::atomic::{AtomicUsize, Ordering};
use std::sync::Arc;

/// The places of a ring.
const PLACES: usize = 256;

/// By which steps an end tells the other one how far it is.
pub trait Order: 'static {
    const STORE: Ordering;
    const LOAD: Ordering;
}

/// What a place needs: the other end sees what was written before.
pub struct Paired;

impl Order for Paired {
    const STORE: Ordering = Ordering::Release;
    const LOAD: Ordering = Ordering::Acquire;
}

/// One order of all steps for all threads, as the kit of `nllc` has it.
pub struct OneOrder;

impl Order for OneOrder {
    const STORE: Ordering = Ordering::SeqCst;
    const LOAD: Ordering = Ordering::SeqCst;
}

/// A number in cache lines of its own.
#[repr(align(128))]
struct Apart(AtomicUsize);

struct Shared<T> {
    /// How many were taken.
    head: Apart,
    /// How many were posted.
    tail: Apart,
    places: [UnsafeCell<MaybeUninit<T>>; PLACES],
}

// Only the sender writes a place, before it tells of it by `tail`; only the receiver reads it, before it
// frees it by `head`.
unsafe impl<T: Copy + Send> Sync for Shared<T> {}

/// The end that posts.
pub struct Sender<T, O> {
    shared: Arc<Shared<T>>,
    tail: usize,
    /// How many were taken when this end looked last.
    seen_head: usize,
    order: PhantomData<O>,
}

/// The end that takes.
pub struct Receiver<T, O> {
    shared: Arc<Shared<T>>,
    head: usize,
    /// How many were posted when this end looked last.
    seen_tail: usize,
    order: PhantomData<O>,
}

/// The ends of a new ring.
pub fn ring<T: Copy + Send, O: Order>() -> (Sender<T, O>, Receiver<T, O>) {
    let shared = Arc::new(Shared {
        head: Apart(AtomicUsize::new(0)),
        tail: Apart(AtomicUsize::new(0)),
        places: std::array::from_fn(|_| UnsafeCell::new(MaybeUninit::uninit())),
    });
    let other = Arc::clone(&shared);
    (
        Sender { shared, tail: 0, seen_head: 0, order: PhantomData },
        Receiver { shared: other, head: 0, seen_tail: 0, order: PhantomData },
    )
}

impl<T: Copy + Send, O: Order> Sender<T, O> {
    /// Posts a value; it comes back where the ring is full.
    pub fn post(&mut self, value: T) -> Result<(), T> {
        let Sender { shared, tail, seen_head, order: PhantomData } = self;
        if tail.wrapping_sub(*seen_head) == PLACES {
            *seen_head = shared.head.0.load(O::LOAD);
            if tail.wrapping_sub(*seen_head) == PLACES {
                return Err(value);
            }
        }
        let place = shared.places[*tail % PLACES].get();
        unsafe { (*place).write(value) };
        *tail = tail.wrapping_add(1);
        shared.tail.0.store(*tail, O::STORE);
        Ok(())
    }
}

impl<T: Copy + Send, O: Order> Receiver<T, O> {
    /// Takes the value at the front, if one is found.
    pub fn take(&mut self) -> Option<T> {
        let Receiver { shared, head, seen_tail, order: PhantomData } = self;
        if head == seen_tail {
            *seen_tail = shared.tail.0.load(O::LOAD);
            if head == seen_tail {
                return None;
            }
        }
        let place = shared.places[*head % PLACES].get();
        let value = unsafe { (*place).assume_init_read() };
        *head = head.wrapping_add(1);
        shared.head.0.store(*head, O::STORE);
        Some(value)
    }
}
