//! Numbers that are given to others.

use super::Actors;
use std::thread;

/// Returns the number that a thread of this name gets, which has ended then.
fn number_of(actors: &mut Actors, name: &str) -> u32 {
    let thread = thread::Builder::new().name(name.to_string());
    let found = thread::scope(|scope| {
        let finds = thread.spawn_scoped(scope, || actors.find(None, None));
        finds.unwrap().join().unwrap()
    });
    found.unwrap().number()
}

/// Returns the number that this thread gets.
fn own_number(actors: &mut Actors) -> u32 {
    actors.find(None, None).unwrap().number()
}

/// Of two callers that got no number, both look for one that nobody needs, and one of them gets it
/// before the other gives it away.
#[test]
fn a_number_that_somebody_has_got_since_is_not_given_away() {
    let mut actors = Actors::default();
    let number = number_of(&mut actors, "gone");
    let (first, second) = (actors.unused(), actors.unused());
    actors.give_away(first, 0);
    assert_eq!(own_number(&mut actors), number);
    actors.give_away(second, 0);
    assert_ne!(number_of(&mut actors, "later"), number);
    assert_eq!(own_number(&mut actors), number);
}

#[test]
fn a_number_that_two_give_away_is_given_to_one() {
    let mut actors = Actors::default();
    let number = number_of(&mut actors, "gone");
    let (first, second) = (actors.unused(), actors.unused());
    actors.give_away(first, 0);
    actors.give_away(second, 0);
    assert_eq!(own_number(&mut actors), number);
    assert_ne!(number_of(&mut actors, "later"), number);
}
