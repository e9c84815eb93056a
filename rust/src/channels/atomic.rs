//! An atomic number of 64 bits, also for processors that have none.

#[cfg(not(target_has_atomic = "64"))]
pub(crate) use locked::AtomicU64;
#[cfg(target_has_atomic = "64")]
pub(crate) use std::sync::atomic::AtomicU64;

/// A number behind a lock, with those methods of `std`'s atomic number that this crate uses.
#[cfg(any(test, not(target_has_atomic = "64")))]
mod locked {
    use crate::channels::lock::lock;
    use std::sync::Mutex;
    use std::sync::atomic::Ordering;

    pub(crate) struct AtomicU64(Mutex<u64>);

    impl AtomicU64 {
        pub(crate) const fn new(number: u64) -> AtomicU64 {
            AtomicU64(Mutex::new(number))
        }

        pub(crate) fn load(&self, _order: Ordering) -> u64 {
            *lock(&self.0)
        }

        pub(crate) fn store(&self, number: u64, _order: Ordering) {
            *lock(&self.0) = number;
        }

        pub(crate) fn fetch_add(&self, more: u64, _order: Ordering) -> u64 {
            self.update(|number| number.wrapping_add(more))
        }

        pub(crate) fn fetch_min(&self, other: u64, _order: Ordering) -> u64 {
            self.update(|number| number.min(other))
        }

        /// Changes the number, and returns what it was.
        fn update(&self, change: impl FnOnce(u64) -> u64) -> u64 {
            let mut number = lock(&self.0);
            let next = change(*number);
            std::mem::replace(&mut *number, next)
        }
    }
}

#[cfg(test)]
mod tests {
    use super::locked;
    use std::sync::atomic::{AtomicU64, Ordering::SeqCst};
    use std::thread;

    #[test]
    fn a_number_behind_a_lock_answers_as_that_of_std() {
        let (number, wanted) = (locked::AtomicU64::new(7), AtomicU64::new(7));
        for other in [0, 3, u64::MAX, 1 << 40, 5] {
            assert_eq!(
                number.fetch_add(other, SeqCst),
                wanted.fetch_add(other, SeqCst)
            );
            assert_eq!(
                number.fetch_min(other, SeqCst),
                wanted.fetch_min(other, SeqCst)
            );
            assert_eq!(number.load(SeqCst), wanted.load(SeqCst));
        }
        number.store(9, SeqCst);
        assert_eq!(number.load(SeqCst), 9);
    }

    #[test]
    #[cfg_attr(target_family = "wasm", ignore = "WebAssembly has no threads")]
    fn no_addition_of_a_thread_is_lost() {
        static NUMBER: locked::AtomicU64 = locked::AtomicU64::new(0);
        let threads = [(); 4].map(|()| {
            thread::spawn(|| {
                for _ in 0..1000 {
                    NUMBER.fetch_add(1, SeqCst);
                }
            })
        });
        for thread in threads {
            thread.join().unwrap();
        }
        assert_eq!(NUMBER.load(SeqCst), 4000);
    }
}
