//! Walks over what a recorder has recorded, as a debugger makes them. Steps allocate nothing.

#[path = "support/refusing.rs"]
mod refusing;

use refusing::{Refusal, Refusing, refusing};
use yovanelum::debugger::{Channel, Condition, Walk};
use yovanelum::{Recorder, broadcast, watch};

#[global_allocator]
static ALLOCATOR: Refusing = Refusing;

/// Returns the journal of a bus whose audit loses two of four orders, and of a level that nobody
/// looks at.
fn recorded() -> String {
    let recorder = Recorder::new();
    let _entered = recorder.enter();
    let (orders, mut audit) = broadcast::channel(2);
    let (level, _seen) = watch::channel(0);
    for id in 0..4 {
        orders.send(id).unwrap();
        level.send(id).unwrap();
    }
    audit.try_recv().unwrap_err();
    recorder.journal().unwrap()
}

fn lag(walk: &Walk) -> u64 {
    match walk.channel(0) {
        Some(Channel::Broadcast(orders)) => orders.receiver(1).unwrap().lag,
        _ => panic!("channel 0 is the broadcast"),
    }
}

#[test]
fn what_a_recorder_recorded_is_walked() {
    let mut walk = Walk::open(recorded().as_bytes()).unwrap();
    assert_eq!((walk.len(), walk.place(), walk.channels()), (9, 9, 2));
    assert_eq!(lag(&walk), 0);
    let told = walk.entry(9).unwrap();
    assert_eq!(
        (told.call(), told.reply(), told.returned()),
        ("try-recv", "lagged", Some(2))
    );
    assert!(walk.back());
    assert_eq!(lag(&walk), 2);
    // The third order overwrote the first one.
    assert_eq!(walk.find_back(&Condition::lagging(0, 1)), Some(5));
    assert_eq!(lag(&walk), 1);
    let Some(Channel::Watch(level)) = walk.channel(1) else {
        panic!("channel 1 is the watch")
    };
    assert_eq!(
        (level.version(), level.receiver(1).unwrap().is_seen),
        (2, false)
    );
    assert!(walk.channel(2).is_none());
    assert!(!walk.go_to(10));
    assert_eq!(walk.place(), 5);
    assert_eq!(walk.hits_so_far(&Condition::channel(1)), 2);
}

#[test]
fn moves_and_questions_allocate_nothing() {
    let mut walk = Walk::open(recorded().as_bytes()).unwrap();
    let condition = Condition::lagging(0, 1);
    let (lags, refused) = refusing(Refusal::after(0), || {
        let mut lags = 0;
        while walk.back() {
            lags += lag(&walk);
        }
        while walk.forward() {
            lags += lag(&walk);
        }
        lags += walk.find_back(&condition).unwrap();
        walk.go_to(0);
        lags + walk.find_forward(&condition).unwrap() + u64::from(walk.entry(1).unwrap().handle())
    });
    // The lag is 1 at the places 5 and 6, and 2 at the places 7 and 8, in both directions.
    assert_eq!((lags, refused), (2 * (1 + 1 + 2 + 2) + 5 + 5, 0));
}

#[test]
fn searches_for_calls_find_the_same_without_memory() {
    let condition = Condition::channel(1);
    let sum = |walk: &mut Walk| -> u64 {
        assert!(walk.go_to(9));
        std::iter::from_fn(|| walk.find_back(&condition)).sum()
    };
    let mut walk = Walk::open(recorded().as_bytes()).unwrap();
    let (found, refused) = refusing(Refusal::after(0), || sum(&mut walk));
    // The level's sends are the calls 2, 4, 6 and 8. Each search asks for the memory of an index.
    assert_eq!((found, refused), (2 + 4 + 6 + 8, 5));
    assert_eq!(sum(&mut walk), found);
}

#[test]
fn a_journal_that_is_refused_says_its_first_fault_and_line() {
    let journal = recorded();
    let wrong = journal.replace("= lagged 2", "= lagged 1");
    let fault = Walk::open(wrong.as_bytes()).unwrap_err();
    assert_eq!(fault.to_string(), "journal fault wrong-reply 13");
    assert_eq!((fault.line(), fault.is_truncated()), (Some(13), false));
    assert_eq!(Walk::salvage(wrong.as_bytes()).unwrap_err(), fault);
    // Half of the last entry and the line `end` are lost.
    let truncated = &journal.as_bytes()[..journal.len() - 10];
    let fault = Walk::open(truncated).unwrap_err();
    assert_eq!((fault.line(), fault.is_truncated()), (None, true));
    let (walk, bytes) = Walk::salvage(truncated).unwrap();
    assert_eq!(walk.len(), 8);
    assert_eq!(truncated[bytes - 1], b'\n');
    let (whole, bytes) = Walk::salvage(journal.as_bytes()).unwrap();
    assert_eq!((whole.len(), bytes), (9, journal.len()));
}
