//! A race of two threads, which ThreadSanitizer has to find: both write to a number, and nothing orders their writes.
//! With the word `ordered` a lock orders them, and nothing is to be found.

use std::cell::UnsafeCell;
use std::sync::{Barrier, Mutex};
use std::{env, thread};

struct Shared(UnsafeCell<u64>);

// SAFETY: there is none, which is what is to be found.
unsafe impl Sync for Shared {}

impl Shared {
    fn add(&self) {
        // SAFETY: none, as above.
        unsafe { *self.0.get() += 1 }
    }
}

fn main() {
    let (shared, lock) = (Shared(UnsafeCell::new(0)), Mutex::new(()));
    // All writes come after both threads have started, so that the end of one can't come before the start of the other.
    let both = Barrier::new(2);
    let is_ordered = env::args().nth(1).is_some_and(|word| word == "ordered");
    thread::scope(|scope| {
        for _ in 0..2 {
            scope.spawn(|| {
                both.wait();
                for _ in 0..1000 {
                    let _held = is_ordered.then(|| lock.lock());
                    shared.add();
                }
            });
        }
    });
    println!("{}", shared.0.into_inner());
}
