//! A value that is moved into an `Arc` by one copy. In `Arc::new` an unoptimized build has it on
//! the stack twice more, and the values of a channel may be large.
#![allow(unsafe_code)]

use std::mem::MaybeUninit;
use std::sync::Arc;

/// Returns the place of a value that is shared with nobody yet. `Arc::get_mut` finds that out by an
/// atomic exchange.
pub(crate) fn place_in<T>(made: &Arc<MaybeUninit<T>>) -> *mut T {
    Arc::as_ptr(made).cast_mut().cast()
}

/// Returns an `Arc` of this value.
// By `arc_finished` a large value would be on the stack once more, where nothing is inlined.
pub(crate) fn arc_of<T>(value: T) -> Arc<T> {
    let made = Arc::<T>::new_uninit();
    // SAFETY: nobody else has the place, which is written before it is said to be.
    unsafe {
        place_in(&made).write(value);
        made.assume_init()
    }
}

/// Returns an `Arc` of this value, which `finish` changes where it stays.
pub(crate) fn arc_finished<T>(value: T, finish: impl FnOnce(&mut T)) -> Arc<T> {
    let made = Arc::<T>::new_uninit();
    let place = place_in(&made);
    // SAFETY: nobody else has the place, which is written before it is borrowed and said to be. If
    // `finish` panics, the place is freed, and the value isn't dropped.
    unsafe {
        place.write(value);
        finish(&mut *place);
        made.assume_init()
    }
}

#[cfg(test)]
mod tests {
    use super::*;

    #[test]
    fn the_value_is_there_and_is_dropped_once() {
        let alive = Arc::new(());
        let made = arc_of((alive.clone(), [7; 1000]));
        assert_eq!((made.1[999], Arc::strong_count(&alive)), (7, 2));
        drop(made.clone());
        assert_eq!(Arc::strong_count(&alive), 2);
        drop(made);
        assert_eq!(Arc::strong_count(&alive), 1);
    }

    #[test]
    fn a_value_is_finished_where_it_stays() {
        let alive = Arc::new(());
        let made = arc_finished((alive.clone(), [7; 1000]), |made| made.1[999] = 8);
        assert_eq!((made.1[998], made.1[999]), (7, 8));
        drop(made);
        assert_eq!(Arc::strong_count(&alive), 1);
    }
}
