//! `Box` and `Snapshot`.

use crate::shim::Box;
use crate::shim::alloc::Global;
use crate::shim::snapshot::Snapshot;
use std::cell::Cell;
use std::rc::Rc;

#[test]
fn a_box_has_the_value_that_was_put_into_it() {
    let mut boxed = Box::new(Global, [1u64, 2, 3]).unwrap();
    assert_eq!(*boxed, [1, 2, 3]);
    boxed[1] = 20;
    assert_eq!(*boxed, [1, 20, 3]);
    assert_eq!(Box::into_inner(boxed), [1, 20, 3]);
    let nothing = Box::new(Global, ()).unwrap();
    assert_eq!(*nothing, ());
}

/// Counts how often it is dropped.
#[derive(Debug)]
struct Dropped(Rc<Cell<u32>>);

impl Drop for Dropped {
    fn drop(&mut self) {
        self.0.set(self.0.get() + 1);
    }
}

#[test]
fn a_boxed_value_is_dropped_once() {
    let drops = Rc::new(Cell::new(0));
    let boxed = Box::new(Global, Dropped(drops.clone())).unwrap();
    assert_eq!(drops.get(), 0);
    drop(boxed);
    assert_eq!(drops.get(), 1);
    let value = Box::into_inner(Box::new(Global, Dropped(drops.clone())).unwrap());
    assert_eq!(drops.get(), 1);
    drop(value);
    assert_eq!(drops.get(), 2);
}

#[test]
fn a_list_of_boxes_can_hold_itself() {
    #[derive(Debug)]
    struct Link {
        n: u32,
        next: Option<Box<Link>>,
    }
    let mut list = None;
    for n in 0..5 {
        list = Some(Box::new(Global, Link { n, next: list }).unwrap());
    }
    let mut seen = Vec::new();
    while let Some(link) = list {
        let Link { n, next } = Box::into_inner(link);
        seen.push(n);
        list = next;
    }
    assert_eq!(seen, [4, 3, 2, 1, 0]);
}

#[test]
fn a_snapshot_has_no_bytes_and_owns_nothing() {
    let drops = Rc::new(Cell::new(0));
    let value = Dropped(drops.clone());
    assert_eq!(size_of_val(&Snapshot::of(&value)), 0);
    assert_eq!(drops.get(), 0);
    drop(value);
    assert_eq!(drops.get(), 1);
}
