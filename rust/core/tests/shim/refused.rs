//! Each function with each of its requests for memory refused: it returns its error, and nothing
//! has changed.

use crate::Owned;
use crate::refusing::{Refusal, refusing};
use crate::shim::alloc::{AllocError, AllocFailed, Global};
use crate::shim::{Box, SliceExt, String, Vec, format, vec};
use std::fmt::Debug;
use std::io::{ErrorKind, Write};

/// Makes a call without memory from its first request on, then from its second one on, and so on
/// until it has all that it asks for. `call` makes what it works on, and checks what is left of it.
/// It returns the call's result, which has to be an error while a request is refused. Returns how
/// many requests there were.
fn each_refused<T: Debug, E: Debug>(call: impl Fn(Refusal) -> (Result<T, E>, u64)) -> u64 {
    for allowed in 0.. {
        let (result, refused) = call(Refusal::after(allowed));
        assert_eq!(result.is_err(), refused > 0, "after {allowed}: {result:?}");
        if refused == 0 {
            return allowed;
        }
    }
    unreachable!("each call ends its requests")
}

/// The same of a call that makes something from nothing.
fn each_refused_of<T: Debug, E: Debug>(call: impl Fn() -> Result<T, E>) -> u64 {
    each_refused(|refusal| refusing(refusal, &call))
}

/// A full vector, without room for one more.
fn full() -> Vec<u32> {
    let mut items = Vec::with_capacity(Global, 3).unwrap();
    items.extend_from_slice(&[1, 2, 3]).unwrap();
    assert_eq!(items.capacity(), 3);
    items
}

/// Makes a call on a full vector, and checks that it is the same if the call is refused.
fn each_refused_on_full<E: Debug>(call: impl Fn(&mut Vec<u32>) -> Result<(), E>) -> u64 {
    each_refused(|refusal| {
        let mut items = full();
        let (result, refused) = refusing(refusal, || call(&mut items));
        if refused > 0 {
            assert_eq!((items.as_slice(), items.capacity()), (&[1, 2, 3][..], 3));
        }
        (result, refused)
    })
}

#[test]
fn a_vector_that_finds_no_room_is_as_it_was() {
    assert_eq!(each_refused_on_full(|items| items.reserve(1)), 1);
    assert_eq!(each_refused_on_full(|items| items.reserve(1_000_000)), 1);
    assert_eq!(each_refused_on_full(|items| items.push(4)), 1);
    assert_eq!(
        each_refused_on_full(|items| items.extend_from_slice(&[4, 5])),
        1
    );
    assert_eq!(
        each_refused_on_full(|items| items.extend_from_slice(&[])),
        0
    );
}

#[test]
fn a_value_that_is_not_stored_comes_back() {
    let mut items = full();
    let (result, refused) = refusing(Refusal::only(0), || items.push(4));
    assert!(matches!(result, Err(AllocFailed { value: 4 })));
    assert_eq!(refused, 1);

    let value = std::boxed::Box::new(7);
    let (result, refused) = refusing(Refusal::only(0), || Box::new(Global, value));
    assert_eq!(result.map_err(|error| *error.value).err(), Some(7));
    assert_eq!(refused, 1);

    let (result, refused) = refusing(Refusal::only(0), || vec![in Global; 5, 6]);
    assert_eq!(result.map_err(|error| error.value).err(), Some([5, 6]));
    assert_eq!(refused, 1);
}

#[test]
fn what_can_not_be_made_is_an_error() {
    assert_eq!(each_refused_of(|| Vec::<u32>::with_capacity(Global, 5)), 1);
    assert_eq!(each_refused_of(|| Vec::<u32>::with_capacity(Global, 0)), 0);
    assert_eq!(each_refused_of(|| Vec::from_slice(Global, &[1, 2])), 1);
    assert_eq!(each_refused_of(|| [1, 2].try_to_vec(Global)), 1);
    assert_eq!(each_refused_of(|| vec![in Global; 7u32; 4]), 1);
    assert_eq!(each_refused_of(|| vec![in Global; 5, 6]), 1);
    assert_eq!(each_refused_of(|| Box::new(Global, [0u8; 100])), 1);
}

#[test]
fn a_clone_that_is_refused_is_an_error() {
    let items = [1, 2, 3].map(Owned::new);
    assert_eq!(each_refused_of(|| items.try_to_vec(Global)), 4);
    assert_eq!(items, [1, 2, 3].map(Owned::new));
    let made = each_refused(|refusal| {
        let item = Owned::new(9);
        refusing(refusal, || vec![in Global; item; 3])
    });
    assert_eq!(made, 3);
}

#[test]
fn nothing_is_asked_for_where_there_is_nothing_to_store() {
    let asked = refusing(Refusal::above(0), || {
        let items = Vec::<u32>::new(Global);
        let text = String::new(Global);
        (items.len(), text.len())
    });
    assert_eq!(asked, ((0, 0), 0));
}

#[test]
fn room_that_is_there_is_not_asked_for() {
    let mut items = Vec::with_capacity(Global, 6).unwrap();
    let (result, refused) = refusing(Refusal::above(0), || {
        items.push(1)?;
        items.extend_from_slice(&[2, 3])?;
        items.push_reserved(4);
        items.reserve(2)
    });
    assert_eq!((result, refused), (Ok(()), 0));
    assert_eq!(items.as_slice(), [1, 2, 3, 4]);
}

#[test]
fn a_text_that_finds_no_room_is_as_it_was() {
    let requests = each_refused(|refusal| {
        let mut text = String::new(Global);
        text.push_str("abc").unwrap();
        let long = "d".repeat(100);
        let (result, refused) = refusing(refusal, || text.push_str(&long));
        assert_eq!(*text == *"abc", refused > 0);
        (result, refused)
    });
    assert_eq!(requests, 1);
    let name = "audit".repeat(10);
    assert!(each_refused_of(|| format!(in Global; "{name} {}", 17)) > 0);
}

#[test]
fn a_write_that_finds_no_room_writes_nothing() {
    let mut bytes = Vec::from_slice(Global, b"abc").unwrap();
    let (result, refused) = refusing(Refusal::only(0), || bytes.write(b"defgh"));
    assert_eq!(
        result.map_err(|error| error.kind()),
        Err(ErrorKind::OutOfMemory)
    );
    assert_eq!(refused, 1);
    assert_eq!(bytes.as_slice(), b"abc");
}

#[test]
fn a_refused_call_can_be_made_again() {
    let mut items = full();
    let (result, _) = refusing(Refusal::only(0), || items.push(4));
    assert!(result.is_err());
    items.push(4).unwrap();
    assert_eq!(items.as_slice(), [1, 2, 3, 4]);
    assert_eq!(
        Err(AllocError),
        refusing(Refusal::only(0), || items.reserve(50)).0
    );
    items.reserve(50).unwrap();
    assert!(items.capacity() >= 54);
}
