//! `Vec`, `vec!` and the slices' `to_vec`.

use crate::Owned;
use crate::random::Random;
use crate::refusing::{Refusal, refusing};
use crate::shim::alloc::{AllocError, AllocFailed, Global};
use crate::shim::{SliceExt, Vec, vec};
use std::cell::Cell;
use std::io::Write;
use std::rc::Rc;

type Plain = std::vec::Vec<u32>;

/// The address of a vector's items.
fn place<T>(items: &Vec<T>) -> *const T {
    items.as_slice().as_ptr()
}

/// Makes a random call that may need room, on a vector and on Rust's own. Returns the room that it
/// needs.
fn grow(random: &mut Random, items: &mut Vec<u32>, model: &mut Plain) -> usize {
    let n = random.below(100) as u32;
    match random.below(4) {
        0 => {
            items.push(n).unwrap();
            model.push(n);
        }
        1 => {
            let more: Plain = (0..n / 10).map(|k| n + k).collect();
            items.extend_from_slice(&more).unwrap();
            model.extend_from_slice(&more);
        }
        2 if items.len() < items.capacity() => {
            items.push_reserved(n);
            model.push(n);
        }
        _ => {
            items.reserve(n as usize).unwrap();
            return model.len() + n as usize;
        }
    }
    model.len()
}

/// Makes a random call that needs no room.
fn change(random: &mut Random, items: &mut Vec<u32>, model: &mut Plain) {
    let n = random.below(100);
    match random.below(8) {
        0..3 => assert_eq!(items.pop(), model.pop()),
        3 => {
            items.truncate(n);
            model.truncate(n);
        }
        4 if n < 10 => {
            items.clear();
            model.clear();
        }
        5 if n < items.len() => {
            items[n] = n as u32;
            model[n] = n as u32;
        }
        6 => {
            items.as_mut_slice().reverse();
            model.reverse();
        }
        _ => {
            items.sort_unstable();
            model.sort_unstable();
        }
    }
}

/// Checks each way to read a vector.
fn check(items: &Vec<u32>, model: &Plain) {
    assert_eq!(items.as_slice(), &model[..]);
    assert_eq!(&items[..], &model[..]);
    assert_eq!(items.len(), model.len());
    assert_eq!(items.last(), model.last());
    assert!(items.into_iter().eq(model.iter()));
}

#[test]
fn random_calls_do_what_they_do_on_rusts_own() {
    let mut random = Random::new(4);
    let (mut items, mut model) = (Vec::new(Global), Plain::new());
    for _ in 0..50_000 {
        let (capacity, before) = (items.capacity(), place(&items));
        let needed = match random.below(5) {
            0..2 => grow(&mut random, &mut items, &mut model),
            _ => {
                change(&mut random, &mut items, &mut model);
                0
            }
        };
        check(&items, &model);
        // It never gives room back, has that which it needs, and stays where it is if it had that
        // before.
        assert!(items.capacity() >= capacity.max(needed));
        if needed <= capacity {
            assert_eq!((items.capacity(), place(&items)), (capacity, before));
        }
    }
}

#[test]
fn a_new_vector_is_empty_and_has_the_room_that_was_asked_for() {
    let none: Vec<u64> = Vec::new(Global);
    assert_eq!((none.len(), none.capacity()), (0, 0));
    for capacity in [0, 1, 2, 3, 5, 7, 100, 1_000, 600_000] {
        let made: Vec<u64> = Vec::with_capacity(Global, capacity).unwrap();
        assert_eq!((made.len(), made.capacity()), (0, capacity));
    }
}

#[test]
fn the_macro_takes_items_or_one_item_and_a_count() {
    let items = vec![in Global; None, Some(3)].unwrap();
    assert_eq!(items.as_slice(), [None, Some(3)]);
    assert_eq!(vec![in Global; 7u32; 4].unwrap().as_slice(), [7; 4]);
    assert_eq!(vec![in Global; 7u32; 0].unwrap().as_slice(), []);
    let owned = vec![in Global; Owned::new(9); 3].unwrap();
    assert_eq!(owned.as_slice(), [9, 9, 9].map(Owned::new));
}

#[test]
fn copies_equal_what_they_are_copies_of() {
    for length in 0..20 {
        let plain: Plain = (0..length).collect();
        let copy = Vec::from_slice(Global, &plain).unwrap();
        assert_eq!(copy.as_slice(), plain);
        assert_eq!(copy.try_to_vec(Global).unwrap(), copy);
        assert!(copy.into_iter().eq(plain.iter().copied()));
        let owned: std::vec::Vec<Owned> = plain.iter().copied().map(Owned::new).collect();
        assert_eq!(owned.try_to_vec(Global).unwrap().as_slice(), owned);
    }
}

#[test]
fn bytes_that_are_written_stand_at_the_end() {
    let mut bytes = Vec::new(Global);
    assert_eq!(bytes.write(b"watch ").ok(), Some(6));
    assert_eq!(bytes.write(b"").ok(), Some(0));
    assert_eq!(bytes.write(b"17\n").ok(), Some(3));
    bytes.flush().unwrap();
    assert_eq!(bytes.as_slice(), b"watch 17\n");
}

#[test]
fn more_than_a_block_can_have_is_refused() {
    let wide = usize::MAX / 8;
    assert_eq!(Vec::<u64>::with_capacity(Global, wide), Err(AllocError));
    let mut items = Vec::from_slice(Global, &[1u64, 2]).unwrap();
    let capacity = items.capacity();
    for additional in [wide, usize::MAX - 2, usize::MAX - 1, usize::MAX] {
        assert_eq!(items.reserve(additional), Err(AllocError));
        assert_eq!(
            (items.as_slice(), items.capacity()),
            (&[1, 2][..], capacity)
        );
    }
    assert_eq!(vec![in Global; 7u64; wide], Err(AllocError));
}

#[test]
fn an_error_that_returns_a_value_becomes_one_that_does_not() {
    assert_eq!(AllocError::from(AllocFailed { value: 3 }), AllocError);
}

#[test]
fn items_are_dropped_once() {
    struct Dropped(Rc<Cell<u32>>);

    impl Drop for Dropped {
        fn drop(&mut self) {
            self.0.set(self.0.get() + 1);
        }
    }
    let drops = Rc::new(Cell::new(0));
    let mut items = Vec::new(Global);
    for _ in 0..10 {
        assert!(items.push(Dropped(drops.clone())).is_ok());
    }
    assert_eq!(drops.get(), 0);
    items.truncate(7);
    assert_eq!(drops.get(), 3);
    drop(items.pop());
    assert_eq!(drops.get(), 4);
    drop(items.into_iter().next());
    assert_eq!(drops.get(), 10);
}

/// A vector that a push moves next, of 1 MiB, with what it holds.
fn of_a_mebibyte() -> (Vec<u64>, usize) {
    let length = (1 << 20) / 8;
    let mut items = Vec::with_capacity(Global, length).unwrap();
    for n in 0..length as u64 {
        items.push_reserved(n);
    }
    (items, length)
}

/// The items of a whole block, of nearly 32 MiB.
const WHOLE: usize = ((32 << 20) - (8 << 10)) / 8;

#[cfg(target_os = "linux")]
#[test]
fn a_large_vector_is_moved_to_a_whole_block_where_it_stays() {
    let (mut items, length) = of_a_mebibyte();
    items.push(length as u64).unwrap();
    assert_eq!(items.capacity(), WHOLE);
    let before = place(&items);
    for n in length + 1..4 * length {
        items.push(n as u64).unwrap();
    }
    assert_eq!((items.capacity(), place(&items)), (WHOLE, before));
    assert!(items.into_iter().eq(0..4 * length as u64));
}

#[test]
fn a_large_vector_that_gets_no_whole_block_takes_a_smaller_one() {
    let (mut items, length) = of_a_mebibyte();
    let (result, refused) = refusing(Refusal::above(16 << 20), || items.push(length as u64));
    assert!(result.is_ok());
    assert_eq!(refused, u64::from(cfg!(target_os = "linux")));
    assert!((length + 1..WHOLE).contains(&items.capacity()));
    assert!(items.into_iter().eq(0..=length as u64));
}

/// How many pages of a vector's block are in memory, without its first and its last ones.
#[cfg(all(target_os = "linux", target_arch = "x86_64"))]
fn pages_in_memory(items: &Vec<u64>) -> usize {
    unsafe extern "C" {
        fn mincore(addr: *const u8, len: usize, pages: *mut u8) -> i32;
    }
    const PAGE: usize = 4096;
    let mut pages = std::vec![0; items.capacity() * 8 / PAGE - 2];
    let start = place(items).cast::<u8>();
    let skip = start.align_offset(PAGE);
    // SAFETY: these pages are in the vector's block, and there is a byte for each.
    let result = unsafe {
        mincore(
            start.wrapping_add(skip + PAGE),
            pages.len() * PAGE - PAGE,
            pages.as_mut_ptr(),
        )
    };
    assert_eq!(result, 0);
    pages.iter().filter(|page| **page & 1 == 1).count()
}

// Elsewhere pages may have another size.
#[cfg(all(target_os = "linux", target_arch = "x86_64"))]
#[test]
fn what_a_copy_does_not_fill_of_its_block_takes_no_memory() {
    let (mut items, length) = of_a_mebibyte();
    items.clear();
    assert!(pages_in_memory(&items) > 0);
    yovanelum_core::large_pages::begin_to_give_back();
    items.extend_from_slice(&[7; 16]).unwrap();
    assert_eq!((pages_in_memory(&items), items.capacity()), (0, length));
    assert_eq!(items.as_slice(), [7; 16]);
}

#[test]
fn a_vector_grows_by_moves_where_memory_is_given_back() {
    yovanelum_core::large_pages::begin_to_give_back();
    let (mut items, mut capacities) = (Vec::new(Global), Plain::new());
    let (_, length) = of_a_mebibyte();
    for n in 0..length as u64 {
        let before = items.capacity();
        items.push(n).unwrap();
        capacities.extend((items.capacity() > before).then_some(items.capacity() as u32));
    }
    // It doubles, as without.
    assert_eq!(capacities.last_chunk(), Some(&[1 << 15, 1 << 16, 1 << 17]));
    assert!(items.into_iter().eq(0..length as u64));
}
