//! The storm of a desk with seats: four seats make calls, two in each of two threads, and the two of a thread meet in between.
//! Any two of them share a thread in one of three rounds.

use crate::channels::{OWN_HANDLES, SECOND_HANDLES, SPECS};
use crate::notes::{Notes, SEATS, are_places};
use crate::receipts::{Receipts, assert_agree};
use crate::seeds;
use proved::rw_seat::{DeskSeat, SeatDesk};
use proved::rw_world::ChanCall;
use proved::{Global, RT};
use support::{in_time, side_by_side};

/// How many calls are made for a seed.
const CALLS: u64 = 16_000;

/// How many rounds there are.
const ROUNDS: u64 = 3;

/// After this many calls of each seat, two seats meet.
const BETWEEN_MEETINGS: u64 = 16;

/// A seat, and what its player records of its results.
struct Player {
    seat: DeskSeat<u64>,
    notes: Notes,
}

/// Two players of one thread.
type Pair = (Player, Player);

/// Makes a call by a player's seat.
fn call(desk: &SeatDesk<u64>, player: Player, channel: u32, call: ChanCall<u64>) -> Player {
    let Player { seat, mut notes } = player;
    let (seat, answer) = desk.call(&RT, seat, channel, call);
    notes.hear(channel, answer);
    Player { seat, notes }
}

/// Makes these calls.
fn call_all(desk: &SeatDesk<u64>, mut player: Player, calls: &[(u32, ChanCall<u64>)]) -> Player {
    for (channel, asked) in calls {
        player = call(desk, player, *channel, *asked);
    }
    player
}

/// Makes the handles that the players name as their own.
fn prepare(desk: &SeatDesk<u64>, player: Player) -> Player {
    let mut player = call_all(desk, player, &SECOND_HANDLES);
    for _ in 0..SEATS {
        player = call_all(desk, player, &OWN_HANDLES);
    }
    player
}

/// Makes the next call of a player.
fn play(desk: &SeatDesk<u64>, mut player: Player) -> Player {
    let choice = player.notes.choose();
    call(desk, player, choice.channel, choice.call)
}

/// Lets two players' seats meet.
fn meet(desk: &SeatDesk<u64>, (mut one, mut two): Pair, channel: u32) -> Pair {
    let length;
    (one.seat, two.seat, length) = desk.meet(&RT, one.seat, two.seat, channel);
    one.notes.hear_of_meeting(&two.notes, channel, length);
    (one, two)
}

/// Makes this many calls by each of two seats, in turn. In between they meet, on one channel after another, and on one that isn't
/// there.
fn play_pair(desk: &SeatDesk<u64>, mut pair: Pair, calls: u64) -> Pair {
    for i in 0..calls {
        pair = (play(desk, pair.0), play(desk, pair.1));
        if i % BETWEEN_MEETINGS == 0 {
            let channel = (i / BETWEEN_MEETINGS) % (SPECS.len() as u64 + 1);
            pair = meet(desk, pair, channel as u32);
        }
    }
    pair
}

/// Plays all rounds, with this many calls of each seat in each. At the end the players are paired as at the beginning.
fn play_rounds(desk: &SeatDesk<u64>, mut one: Pair, mut two: Pair, calls: u64) -> (Pair, Pair) {
    for _ in 0..ROUNDS {
        let ((first, second), (third, fourth)) = side_by_side(
            || play_pair(desk, one, calls),
            || play_pair(desk, two, calls),
        );
        one = (first, third);
        two = (fourth, second);
    }
    (one, two)
}

/// Makes many calls, chosen from a seed, closes the desk and compares its run with what the seats know.
fn play_seed(seed: u64) {
    let (desk, seats) = SeatDesk::open(Global, &SPECS, SEATS).unwrap();
    let mut players = seats.into_iter().map(|seat| Player {
        notes: Notes::new(seed, seat.actor()),
        seat,
    });
    let mut next = || players.next().unwrap();
    let one = (prepare(&desk, next()), next());
    let two = (next(), next());
    let (one, two) = play_rounds(&desk, one, two, CALLS / (u64::from(SEATS) * ROUNDS));
    let players = [one.0, one.1, two.0, two.1];
    let (seats, notes): (Vec<_>, Vec<_>) = players
        .into_iter()
        .map(|player| (player.seat, player.notes))
        .unzip();
    let receipts = seats
        .iter()
        .map(|seat| Receipts::of(seat.actor(), seat.kept()));
    let receipts: Vec<_> = receipts.collect();
    let Ok(run) = desk.close(&RT, Global, seats.into_iter().collect()) else {
        panic!("seed {seed}: the desk does not close");
    };
    assert_agree(seed, &run, &receipts);
    assert!(
        are_places(&run, &notes),
        "seed {seed}: a front is not its entry's place, or fell"
    );
}

#[test]
fn fronts_of_seats_are_the_places_of_their_entries() {
    for seed in seeds() {
        in_time(move || play_seed(seed));
    }
}
