//! A small ring, and rings compared with a plain list of the last values.

use proved::Global;
use proved::rw_ring::Ring;

#[test]
fn ring_of_two() {
    let mut ring: Ring<u64> = Ring::new(Global, 2).unwrap();
    assert_eq!(
        [ring.put(1), ring.put(2), ring.put(3)],
        [None, None, Some(1)]
    );
    assert_eq!(
        ([ring.at(0), ring.at(1)], ring.oldest()),
        ([None, Some(2)], 1)
    );
    ring.unput(Some(1));
    assert_eq!(
        ([ring.at(0), ring.at(2)], ring.count()),
        ([Some(1), None], 2)
    );
}

/// A plain implementation: the values in a list, all of which move by one place when one is evicted.
struct Plain {
    values: Vec<u64>,
    capacity: usize,
    count: u64,
}

impl Plain {
    fn put(&mut self, v: u64) -> Option<u64> {
        let evicted = if self.values.len() < self.capacity || self.values.is_empty() {
            None
        } else {
            Some(self.values.remove(0))
        };
        self.values.push(v);
        self.count += 1;
        evicted
    }

    fn unput(&mut self, evicted: Option<u64>) {
        self.values.pop();
        self.count = self.count.saturating_sub(1);
        if let Some(v) = evicted {
            self.values.insert(0, v);
        }
    }

    fn at(&self, position: u64) -> Option<u64> {
        let oldest = self.count.saturating_sub(self.values.len() as u64);
        if position < oldest {
            return None;
        }
        self.values.get((position - oldest) as usize).copied()
    }
}

/// Asserts that a ring shows what a plain list does.
fn agree(ring: &Ring<u64>, plain: &Plain) {
    assert_eq!(ring.count(), plain.count);
    for position in 0..14 {
        let told = (position, plain.at(position));
        assert_eq!((position, ring.at(position)), told);
    }
}

// Two puts and one undone, again and again, and then all undone.
#[test]
fn rings_keep_what_a_plain_list_keeps() {
    for capacity in [1, 2, 4] {
        let mut ring: Ring<u64> = Ring::new(Global, capacity).unwrap();
        keeps(&mut ring, capacity);
    }
}

/// Takes 24 steps on a ring of this capacity, and on a plain list.
fn keeps(ring: &mut Ring<u64>, capacity: u64) {
    let mut plain = Plain {
        values: Vec::new(),
        capacity: capacity as usize,
        count: 0,
    };
    let mut evictions = Vec::new();
    for step in 0..24 {
        take(ring, &mut plain, &mut evictions, step);
    }
    agree(ring, &plain);
    assert_eq!(ring.count(), 0);
}

/// Two of three steps put a value, and the third undoes the last put. From step 18 on, all steps undo.
fn take(ring: &mut Ring<u64>, plain: &mut Plain, evictions: &mut Vec<Option<u64>>, step: u64) {
    agree(ring, plain);
    if step % 3 < 2 && step < 18 {
        assert!(ring.count() < 1000 && plain.count < 1000);
        let evicted = ring.put(100 + step);
        assert_eq!(plain.put(100 + step), evicted);
        evictions.push(evicted);
    } else if let Some(evicted) = evictions.pop() {
        assert!(0 < ring.count());
        // As `unput` requires.
        assert_eq!(evicted.is_some(), ring.capacity() < ring.count());
        ring.unput(evicted);
        plain.unput(evicted);
    }
}
