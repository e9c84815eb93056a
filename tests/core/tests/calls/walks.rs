//! Walks and searches over journals of a small machine.

use proved::Global;
mod adding;
mod metering;
mod parity;

use adding::Adder;
use metering::Metered;
use parity::Parity;
use proved::rw_law::NoMemory;
use proved::rw_navigator::{Move, Navigator, OutOfRange};
use support::fixtures::record;

/// Calls by actor 0, with their stamps.
static ONE_TO_SEVEN: [(u32, u64, u64); 7] = [
    (0, 1, 1),
    (0, 2, 2),
    (0, 3, 3),
    (0, 4, 4),
    (0, 5, 5),
    (0, 6, 6),
    (0, 7, 7),
];

/// Returns a navigator at the opening of an adder that makes these calls.
fn at_opening() -> Navigator<Adder> {
    let mut played = Adder::new();
    let entries = record(&mut played, &ONE_TO_SEVEN);
    let opened = Navigator::open(Global, Adder::new(), &entries);
    opened.unwrap()
}

#[test]
fn the_machine_had_as_many_calls_as_places_were_passed() {
    let mut played = Metered::new(Adder::new());
    let entries = record(&mut played, &[(0, 1, 3), (0, 2, 1), (0, 3, 4)]);
    let start = Metered::new(Adder::new());
    let opened = Navigator::open(Global, start, &entries);
    let mut navigator = opened.unwrap();
    counts_its_turns(&mut navigator);
    assert_eq!(played.calls(), 3);
}

/// Moves of the same navigator one after the other: the result, the place after it, and how many calls the machine had by then.
static TURNS: [(Move, Result<(), OutOfRange>, u64, u64); 7] = [
    (Move::End, Ok(()), 3, 3),
    (Move::Back(1), Ok(()), 2, 4),
    (Move::Goto(0), Ok(()), 0, 6),
    (Move::Forward(2), Ok(()), 2, 8),
    (Move::Back(7), Err(OutOfRange), 2, 8),
    (Move::Start, Ok(()), 0, 10),
    (Move::Goto(3), Ok(()), 3, 13),
];

/// Each move has this result, and the machine had as many calls as the navigator counts.
fn counts_its_turns(navigator: &mut Navigator<Metered<Adder>>) {
    for (to, answer, place, turns) in &TURNS {
        let answered = navigator.step(*to);
        let counts = [
            navigator.place(),
            navigator.turns(),
            navigator.state().calls(),
        ];
        assert_eq!((answered, counts), (*answer, [*place, *turns, *turns]));
    }
}

/// Moves from the opening of seven entries.
static MOVES: [Move; 5] = [
    Move::Back(5),
    Move::Forward(9),
    Move::Goto(4),
    Move::Start,
    Move::End,
];

/// The results of those moves.
static ANSWERS: [Result<(), OutOfRange>; 5] =
    [Err(OutOfRange), Err(OutOfRange), Ok(()), Ok(()), Ok(())];

#[test]
fn walks_by_moves_and_refuses_those_out_of_range() {
    let mut navigator = at_opening();
    let (walked, sum) = walked(&mut navigator, &MOVES);
    refuses(&mut navigator);
    assert_eq!(walked.unwrap().as_slice(), ANSWERS);
    assert_eq!(sum, 28);
}

/// Makes moves. Returns their results, and the sum after them.
fn walked(
    navigator: &mut Navigator<Adder>,
    moves: &[Move],
) -> (Result<proved::Vec<Result<(), OutOfRange>>, NoMemory>, u64) {
    (navigator.walk(Global, moves), navigator.state().sum())
}

/// Moves out of the range of seven entries, from place 7.
static TOO_FAR: [Move; 4] = [
    Move::Forward(u64::MAX),
    Move::Back(u64::MAX),
    Move::Goto(u64::MAX),
    Move::Goto(8),
];

/// Moves out of the range of seven entries are refused, and change nothing.
fn refuses(navigator: &mut Navigator<Adder>) {
    assert_eq!((navigator.place(), navigator.turns()), (7, 15));
    for to in &TOO_FAR {
        let answer = navigator.step(*to);
        assert_eq!(
            (answer, navigator.place(), navigator.turns()),
            (Err(OutOfRange), 7, 15)
        );
    }
}

const EVEN_AMOUNT: Parity = Parity {
    of_amount: true,
    remainder: 0,
};

const EVEN_SUM: Parity = Parity {
    of_amount: false,
    remainder: 0,
};

const ODD_SUM: Parity = Parity {
    of_amount: false,
    remainder: 1,
};

/// A condition, a place, and the nearest hits below it and above it. The sums at the places 0 to 7 are 0, 1, 3, 6, 10, 15, 21, 28.
static NEAREST: [(Parity, u64, Option<u64>, Option<u64>); 12] = [
    (EVEN_AMOUNT, 0, None, Some(2)),
    (EVEN_AMOUNT, 2, None, Some(4)),
    (EVEN_AMOUNT, 6, Some(4), None),
    (EVEN_AMOUNT, 7, Some(6), None),
    (EVEN_SUM, 0, None, Some(3)),
    (EVEN_SUM, 3, None, Some(7)),
    (EVEN_SUM, 4, Some(3), Some(7)),
    (EVEN_SUM, 7, Some(3), None),
    (ODD_SUM, 0, None, Some(1)),
    (ODD_SUM, 1, None, Some(5)),
    (ODD_SUM, 6, Some(5), None),
    (ODD_SUM, 7, Some(5), None),
];

#[test]
fn finds_the_nearest_hit_in_each_direction() {
    let mut navigator = at_opening();
    for (probe, from, below, above) in &NEAREST {
        finds(&mut navigator, *probe, *from, *below, *above);
    }
}

/// Searches for a condition from a place, in each direction. The navigator is then at the hit, or where it was.
fn finds(
    navigator: &mut Navigator<Adder>,
    probe: Parity,
    from: u64,
    below: Option<u64>,
    above: Option<u64>,
) {
    let gone = navigator.step(Move::Goto(from));
    let back = (gone, navigator.back_to(&probe), navigator.place());
    let gone = navigator.step(Move::Goto(from));
    let on = (gone, navigator.forward_to(&probe), navigator.place());
    assert_eq!(
        (back, on),
        (
            (Ok(()), below, below.unwrap_or(from)),
            (Ok(()), above, above.unwrap_or(from))
        ),
        "{probe:?} from {from}"
    );
}
