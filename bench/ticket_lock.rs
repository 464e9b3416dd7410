//! An ordinary ticket lock, with the standard library's atomics alone, to compare the turnstile with.
//!
//! `ticket_lock TURNS THREADS INSIDE OUTSIDE` lets each thread enter so often, add its number to a list
//! and work so many steps inside and outside, and prints the nanoseconds until the last thread has come
//! back. With no threads it works TURNS steps alone.

use std::cell::UnsafeCell;
use std::hint;
use std::sync::atomic::{AtomicU64, Ordering};
use std::thread;
use std::time::Instant;

struct TicketLock<T> {
    next: AtomicU64,
    served: AtomicU64,
    value: UnsafeCell<T>,
}

// Only the thread whose ticket is served reaches the value.
unsafe impl<T: Send> Sync for TicketLock<T> {}

impl<T> TicketLock<T> {
    fn new(value: T) -> Self {
        TicketLock { next: AtomicU64::new(0), served: AtomicU64::new(0), value: UnsafeCell::new(value) }
    }

    fn with<R>(&self, work: impl FnOnce(&mut T) -> R) -> R {
        let ticket = self.next.fetch_add(1, Ordering::Relaxed);
        while self.served.load(Ordering::Acquire) != ticket {
            hint::spin_loop();
        }
        let result = work(unsafe { &mut *self.value.get() });
        self.served.store(ticket + 1, Ordering::Release);
        result
    }
}

/// So many dependent steps.
fn work(mut state: u64, steps: u64) -> u64 {
    for _ in 0..steps {
        state ^= state << 13;
        state ^= state >> 7;
        state ^= state << 17;
    }
    state
}

fn crew(turns: u64, threads: u64, inside: u64, outside: u64) -> u128 {
    let lock = TicketLock::new(Vec::<u32>::with_capacity((turns * threads) as usize));
    let mut sums = 0;
    let start = Instant::now();
    thread::scope(|scope| {
        let crew: Vec<_> = (0..threads)
            .map(|number| {
                let lock = &lock;
                scope.spawn(move || {
                    let mut state = number + 1;
                    for _ in 0..turns {
                        state = lock.with(|list| {
                            list.push(number as u32);
                            work(state, inside)
                        });
                        state = work(state, outside);
                    }
                    state
                })
            })
            .collect();
        for one in crew {
            sums ^= one.join().unwrap();
        }
    });
    let spent = start.elapsed().as_nanos();
    assert_eq!(lock.value.into_inner().len() as u64, turns * threads);
    eprintln!("{sums:x}");
    spent
}

fn alone(turns: u64) -> u128 {
    let lock = TicketLock::new(Vec::<u32>::with_capacity(turns as usize));
    let start = Instant::now();
    for _ in 0..turns {
        lock.with(|list| list.push(0));
    }
    let spent = start.elapsed().as_nanos();
    assert_eq!(lock.value.into_inner().len() as u64, turns);
    spent
}

fn main() {
    let words: Vec<u64> = std::env::args().skip(1).map(|word| word.parse().unwrap()).collect();
    let [turns, threads, inside, outside] = words[..] else { panic!("TURNS THREADS INSIDE OUTSIDE") };
    let spent = match threads {
        0 => {
            let start = Instant::now();
            let state = work(1, turns);
            eprintln!("{state:x}");
            start.elapsed().as_nanos()
        }
        1 => alone(turns),
        _ => crew(turns, threads, inside, outside),
    };
    println!("{spent}");
}
