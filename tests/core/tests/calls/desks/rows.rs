//! Worked rows of both channels, made by handles at a desk of one actor. In a row `/` stands for a line's end.

use super::opened::{OfOne, length_of_one, open_one};
use proved::RT;
use proved::rw_broadcast::BCall;
use proved::rw_desk::{Desk, Ends, Pass};
use proved::rw_watch::WCall;
use proved::rw_words::{WordFault, read_call, read_reply};
use proved::rw_world::{ChanCall, ChanReply, ChannelKind, Spec};
use support::desks::{Hand, call_by, drop_hand, hands_of};

/// Rows of broadcasts: the capacity, and what is called and answered.
static BROADCASTS: [(u32, &str); 10] = [
    // A receiver is overrun.
    (
        2,
        "send 0 1=sent 1/send 0 2=sent 1/send 0 3=sent 1/try-recv 1=lagged 1/try-recv 1=value 2/try-recv 1=value 3/try-recv 1=empty",
    ),
    // The capacity is rounded up.
    (
        3,
        "send 0 1=sent 1/send 0 2=sent 1/send 0 3=sent 1/send 0 4=sent 1/send 0 5=sent 1/try-recv 1=lagged 1",
    ),
    // Lagged comes before closed.
    (
        1,
        "send 0 1=sent 1/send 0 2=sent 1/drop 0=dropped/try-recv 1=lagged 1/try-recv 1=value 2/try-recv 1=closed",
    ),
    // Nobody receives, and then a new receiver does.
    (
        4,
        "drop 1=dropped/send 0 9=no-receivers 9/subscribe 0=new 2/send 0 9=sent 1/recv 2=value 9",
    ),
    // A dropped receiver reads the rest.
    (
        4,
        "send 0 5=sent 1/send 0 6=sent 1/drop 1=dropped/sender-len 0=count 0",
    ),
    // A receiver that is made out of another skips the backlog.
    (
        2,
        "send 0 1=sent 1/send 0 2=sent 1/send 0 3=sent 1/send 0 4=sent 1/send 0 5=sent 1/resubscribe 1=new 2/send 0 6=sent 2/receiver-len 1=count 6/receiver-len 2=count 1",
    ),
    // The slowest receiver counts.
    (
        16,
        "subscribe 0=new 2/send 0 10=sent 2/send 0 20=sent 2/send 0 30=sent 2/sender-len 0=count 3/recv 1=value 10/sender-len 0=count 3/recv 2=value 10/sender-len 0=count 2",
    ),
    // Values are received in turn with sends.
    (
        4,
        "send 0 1=sent 1/send 0 2=sent 1/send 0 3=sent 1/recv 1=value 1/send 0 4=sent 1/recv 1=value 2",
    ),
    // The only sender goes behind its value.
    (4, "send 0 7=sent 1/try-recv 1=value 7/drop 0=dropped"),
    // A new receiver gets the next value.
    (2, "subscribe 0=new 2/send 0 3=sent 2/try-recv 2=value 3"),
];

/// Rows of watches: the first value, and what is called and answered.
static WATCHES: [(u64, &str); 6] = [
    // The same value is a change.
    (
        7,
        "has-changed 1=flag no/send 0 7=stored/has-changed 1=flag yes/changed 1=done/has-changed 1=flag no",
    ),
    // The last change of a closed channel is still seen.
    (
        7,
        "send 0 8=stored/drop 0=dropped/has-changed 1=closed/changed 1=done/changed 1=closed/borrow 1=value 8",
    ),
    // Nobody receives, and then a new receiver does.
    (
        1,
        "drop 1=dropped/is-closed 0=flag yes/closed 0=done/receiver-count 0=count 0/send 0 2=no-receivers 2/borrow 0=value 1/send-replace 0 3=old 1/subscribe 0=new 2/has-changed 2=flag no/borrow 2=value 3",
    ),
    // A modification without notification.
    (
        1,
        "modify 0 5 no=told no/borrow 1=value 5/has-changed 1=flag no",
    ),
    // Marks are cloned.
    (
        4,
        "mark-changed 1=done/mark-changed 1=done/clone-receiver 1=new 2/mark-unchanged 1=done/has-changed 1=flag no/has-changed 2=flag yes/changed 2=done",
    ),
    // A modification with notification.
    (
        7,
        "drop 1=dropped/modify 0 9 yes=told yes/subscribe 0=new 2/has-changed 2=flag no/borrow 2=value 9",
    ),
];

/// Weak senders, whose calls are made by the channel's number.
const WEAK_SENDERS: &str = "downgrade 0=new 2/upgrade 2=new 3/drop 0=dropped/try-recv 1=empty/drop 3=dropped/upgrade 2=no-sender/try-recv 1=closed/clone-weak 2=new 4";

/// The call and the reply of a line.
fn line_of(
    kind: ChannelKind,
    words: &str,
    reply: &str,
) -> Result<(ChanCall<u64>, ChanReply<u64>), WordFault> {
    Ok((
        read_call(kind, words.as_bytes())?,
        read_reply(kind, reply.as_bytes())?,
    ))
}

/// The handles that make the calls of a row, under their numbers.
struct Hands {
    by_number: Vec<Option<Hand>>,
}

impl Hands {
    /// With the handles that a channel has from the beginning.
    fn with(ends: Ends) -> Hands {
        let (sender, receiver) = hands_of(ends);
        Hands {
            by_number: vec![Some(sender), Some(receiver)],
        }
    }

    /// Takes the handle that is named in the words of a call.
    fn take(&mut self, words: &str) -> (usize, Hand) {
        let number = words.split(' ').nth(1).expect("no handle");
        let number: usize = number.parse().expect("a number");
        let slot = self.by_number.get_mut(number).expect("no such handle");
        let hand = slot.take().expect("a handle that was dropped");
        (number, hand)
    }

    /// Puts a handle back, and one that was made behind the others.
    fn put(&mut self, number: usize, hand: Hand, made: Option<Hand>) {
        if let Some(slot) = self.by_number.get_mut(number) {
            *slot = Some(hand);
        }
        if let Some(made) = made {
            self.by_number.push(Some(made));
        }
    }

    /// Makes a call by the handle that its words name.
    fn make(
        &mut self,
        desk: &Desk<u64>,
        pass: &mut Pass<u64>,
        words: &str,
        call: ChanCall<u64>,
    ) -> ChanReply<u64> {
        let (number, hand) = self.take(words);
        if let ChanCall::B(BCall::DropHandle(_)) | ChanCall::W(WCall::DropHandle(_)) = call {
            return drop_hand(desk, pass, hand)
                .map_err(|(fault, _)| fault)
                .unwrap();
        }
        let called = call_by(desk, pass, &hand, call);
        self.put(number, hand, called.made);
        called.reply.unwrap()
    }
}

/// Makes the calls of a row, and compares the replies.
fn make_all(
    desk: &Desk<u64>,
    pass: &mut Pass<u64>,
    hands: &mut Hands,
    kind: ChannelKind,
    row: &str,
) {
    for line in row.split('/') {
        let (words, reply) = line.split_once('=').expect("no reply");
        let (call, reply) = line_of(kind, words, reply).unwrap();
        let made = hands.make(desk, pass, words, call);
        assert_eq!(made, reply, "{line}");
    }
}

/// Makes the calls of a row with the ends of the only channel.
fn make_with(open: &mut OfOne, kind: ChannelKind, row: &str) {
    let ends = open.ends.pop().expect("no ends");
    let mut hands = Hands::with(ends);
    make_all(&open.desk, &mut open.pass, &mut hands, kind, row);
}

/// A run has as many entries as its row has lines.
fn is_long_as(length: u64, row: &str) {
    assert_eq!(length, row.split('/').count() as u64);
}

/// Plays a row on a desk of one channel, which then closes.
fn play(spec: Spec<u64>, row: &str) {
    let mut open = open_one(&[spec]);
    make_with(&mut open, spec.kind(), row);
    let length = length_of_one(open);
    is_long_as(length.unwrap(), row);
}

#[test]
fn rows_of_broadcasts() {
    for (capacity, row) in &BROADCASTS {
        play(Spec::Broadcast(*capacity), row);
    }
}

#[test]
fn rows_of_watches() {
    for (value, row) in &WATCHES {
        play(Spec::Watch(*value), row);
    }
}

/// Makes the calls of a row of a broadcast by the channel's number, and compares the replies.
fn call_all(desk: &Desk<u64>, pass: &mut Pass<u64>, row: &str) {
    for line in row.split('/') {
        let (words, reply) = line.split_once('=').expect("no reply");
        let (asked, reply) = line_of(ChannelKind::Broadcast, words, reply).unwrap();
        let answer = desk.call(&RT, pass, 0, asked);
        assert_eq!(answer, Ok(reply), "{line}");
    }
}

#[test]
fn weak_senders() {
    let mut open = open_one(&[Spec::Broadcast(2)]);
    call_all(&open.desk, &mut open.pass, WEAK_SENDERS);
    let length = length_of_one(open);
    is_long_as(length.unwrap(), WEAK_SENDERS);
}
