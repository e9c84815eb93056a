//! Books, ledgers, drafts, merges and recordings.

use crate::channels::channel;
use proved::rw_broadcast::{BCall, BReply};
use proved::rw_journal::{
    Book, ChanLedger, Ledger, MergeFault, PushFault, RecentCalls, Run, RunDraft, StoredCall,
    TakeFault, entries_of, merge_all, merge_calls, refusal_to_merge,
};
use proved::rw_law::Entry;
use proved::rw_recording::{Cut, CutFault, Flight, Kept, Recording, RunReader, WindowFault};
use proved::rw_watch::{WCall, WReply};
use proved::rw_world::{Chan, ChanCall, ChanReply, RowCall, Spec};
use proved::{Global, Vec};

/// The channels of most tables.
const TWO: [Spec<u64>; 2] = [Spec::Broadcast(2), Spec::Broadcast(2)];

pub const fn send(value: u64) -> ChanCall<u64> {
    ChanCall::B(BCall::Send(0, value))
}

pub const SENT: ChanReply<u64> = ChanReply::B(BReply::Sent(1));

/// Whether the last of many takes was recorded. If not, the journal was full.
fn is_taken<T>(taken: Result<T, TakeFault>) -> bool {
    match taken {
        Ok(_) => true,
        Err(fault) => {
            assert_eq!(fault, TakeFault::JournalFull);
            false
        }
    }
}

/// A book of `size` sends, or of as many as it takes.
fn filled(size: u64) -> (Book<Chan<u64>>, bool) {
    let mut book = Book::open(Global, channel(TWO[0])).unwrap();
    for value in 1..size {
        assert_eq!(book.take(0, value - 1, send(value)).unwrap().reply, SENT);
    }
    let is_taken = is_taken(book.take(0, size - 1, send(size)));
    (book, is_taken)
}

pub fn book(size: u64) -> bool {
    let (book, is_taken) = filled(size);
    let last = book.entries().last().unwrap();
    assert_eq!((last.stamp, book.len()), (last.stamp, last.stamp));
    is_taken && book.len() == size
}

pub fn ledger(size: u64) -> bool {
    let mut ledger: ChanLedger<u64> = Ledger::open(Global, channel(TWO[0])).unwrap();
    for value in 1..size {
        assert_eq!(ledger.take(0, value - 1, send(value)).unwrap().reply, SENT);
    }
    if !is_taken(ledger.take(0, size - 1, send(size))) {
        return false;
    }
    let entries = entries_of(Global, channel(TWO[0]), ledger.calls()).unwrap();
    let (book, _) = filled(size);
    assert_eq!(entries.len(), book.entries().len());
    let same = |(one, two): (&Entry<_>, &Entry<_>)| {
        one.stamp == two.stamp && one.reply == two.reply && one.patch == two.patch
    };
    entries.iter().zip(book.entries()).all(same)
}

/// A run of `size` sends on the first of two channels, and one on the second.
pub fn run_of(size: u64) -> Result<Run<u64>, PushFault> {
    let mut draft = RunDraft::open(Global, &TWO).unwrap();
    let on = |channel, value| RowCall {
        channel,
        call: send(value),
    };
    for value in 1..=size {
        draft.push(0, value, on(0, value), SENT)?;
    }
    draft.push(0, size + 1, on(1, 0), SENT)?;
    Ok(draft.finish())
}

pub fn draft(size: u64) -> bool {
    match run_of(size) {
        Ok(run) => run.len() == size + 1,
        Err(fault) => {
            assert_eq!(fault, PushFault::Limit);
            false
        }
    }
}

/// Whether this is the run of `size` sends and one more, in the order of stamps.
fn is_run(run: Result<Run<u64>, MergeFault>, size: u64) -> bool {
    let Ok(run) = run else {
        return false;
    };
    let [first, .., last] = run.entries() else {
        return false;
    };
    let places = [first, last].map(|entry| (entry.call.channel, entry.stamp));
    run.len() == size + 1 && places == [(0, 1), (1, size + 1)]
}

/// The specs of two channels.
fn specs() -> Vec<Spec<u64>> {
    TWO.into_iter().collect()
}

pub fn merged(size: u64) -> bool {
    let (first, _) = filled(size);
    let mut second = Book::open(Global, channel(TWO[1])).unwrap();
    second.take(0, size, send(0)).unwrap();
    let copy =
        |book: &Book<Chan<u64>>| book.entries().iter().map(Entry::copied).collect::<Vec<_>>();
    let journals = [copy(&first), copy(&second)];
    is_run(merge_all(Global, specs(), &journals), size)
}

pub fn merged_calls(size: u64) -> bool {
    let journal = |first: u64, count: u64| {
        let mut ledger: ChanLedger<u64> = Ledger::open(Global, channel(TWO[0])).unwrap();
        for stamp in first..first + count {
            ledger.take(0, stamp - 1, send(stamp)).unwrap();
        }
        ledger.into_parts().1
    };
    let journals = [journal(1, size), journal(size + 1, 1)];
    is_run(merge_calls(Global, specs(), &journals), size)
}

/// A recording of `size` sends, or of as many as it takes.
fn recording_of(size: u64) -> (Recording, bool) {
    let mut recording = Recording::open(Global, TWO[0]).unwrap();
    for value in 1..size {
        assert_eq!(recording.call(0, value - 1, send(value)), Ok(SENT));
    }
    let is_taken = is_taken(recording.call(0, size - 1, send(size)));
    (recording, is_taken)
}

pub fn recording(size: u64) -> bool {
    let (recording, is_taken) = recording_of(size);
    is_taken && recording.len() == size
}

pub fn unrecorded(size: u64) -> bool {
    let mut recording = Recording::open(Global, TWO[0]).unwrap();
    recording.end();
    let sends = (0..size).all(|value| recording.call(0, 0, send(value)) == Ok(SENT));
    sends && (recording.len(), recording.unread(1)) == (0, Some(size))
}

pub fn cut_channels(size: u64) -> bool {
    let (recording, _) = recording_of(2);
    let mut cut = Cut::new(Global);
    for _ in 1..size {
        cut.add(Global, &recording, 2).unwrap();
    }
    if let Err(fault) = cut.add(Global, &recording, 2) {
        assert_eq!(fault, CutFault::TooManyChannels);
        return false;
    }
    // Channels with the same stamps have no order, so a run is made of one that has calls.
    let mut cut = Cut::new(Global);
    let empty = Recording::open(Global, TWO[0]).unwrap();
    for _ in 1..size {
        cut.add(Global, &empty, 2).unwrap();
    }
    cut.add(Global, &recording, 2).unwrap();
    cut.run(Global).unwrap().specs().len() as u64 == size
}

pub fn cut_calls(size: u64) -> bool {
    let (recording, _) = recording_of(size);
    let mut cut = Cut::new(Global);
    cut.add(Global, &recording, size).unwrap();
    let text = cut.text(Global).unwrap();
    let mut reader = RunReader::read(Global, &text).unwrap();
    let calls = std::iter::from_fn(|| reader.next_call());
    cut.run(Global).unwrap().len() == size && calls.count() as u64 == size
}

pub fn stamps(size: u64) -> bool {
    let mut book = Book::open(Global, channel(TWO[0])).unwrap();
    is_taken(book.take(0, size - 1, send(1))) && book.entries()[0].stamp == size
}

/// Appends an entry of this actor with this stamp to a draft.
fn pushed(actor: u64, stamp: u64) -> bool {
    let mut draft = RunDraft::open(Global, &TWO).unwrap();
    let call = RowCall {
        channel: 0,
        call: send(1),
    };
    let pushed = draft.push(actor as u32, stamp, call, SENT);
    assert!(matches!(pushed, Ok(_) | Err(PushFault::Limit)));
    pushed.is_ok()
}

pub fn draft_stamps(size: u64) -> bool {
    pushed(0, size)
}

pub fn draft_actors(size: u64) -> bool {
    pushed(size - 1, 1)
}

type Recent = RecentCalls<Chan<u64>, StoredCall<u64>>;

pub fn recent_stamps(size: u64) -> bool {
    let mut recent = Recent::open(Global, channel(TWO[0]), 2, 16).unwrap();
    is_taken(recent.take(0, size - 1, send(1)))
}

/// Makes one call more than two chunks have.
pub fn recent_chunk(size: u64) -> bool {
    let mut recent = Recent::open(Global, channel(TWO[0]), size as usize, 16).unwrap();
    for value in 0..=2 * size {
        assert_eq!(recent.take(0, value, send(value)).unwrap().reply, SENT);
    }
    (recent.dropped(), recent.len()) == (size, size + 1)
}

/// Merges as many channels, with one entry each, by as many actors.
pub fn merged_channels(size: u64) -> bool {
    let journals: Vec<Vec<Entry<_>>> = (0..size)
        .map(|number| {
            let mut book = Book::open(Global, channel(TWO[0])).unwrap();
            book.take(number as u32, number, send(number)).unwrap();
            book.entries().iter().map(Entry::copied).collect()
        })
        .collect();
    assert!(refusal_to_merge(&journals).is_none());
    let specs = (0..size).map(|_| TWO[0]).collect();
    let run = merge_all(Global, specs, &journals).unwrap();
    (run.len(), run.entries().last().unwrap().actor) == (size, size as u32 - 1)
}

/// A window of `size` entries: the lead of a broadcast that retains 1,024 values and has a receiver that lags, and the last sends.
pub fn window(size: u64) -> bool {
    const LEAD: u64 = 1_025;
    let chunk = 524_288;
    let mut flight = Flight::open(Global, Spec::Broadcast(1_024), chunk as usize).unwrap();
    for value in 0..3 * chunk - 1 {
        assert_eq!(flight.call(0, value, send(value)), Ok(SENT));
    }
    let mut kept = flight.kept(Global).unwrap();
    assert_eq!((kept.dropped(), kept.len()), (chunk, 2 * chunk - 1));
    kept.skip(Global, kept.len() - (size - LEAD)).unwrap();
    let lead = kept.lead(Global, 1, 0).unwrap();
    assert_eq!(lead.len(), LEAD);
    match lead.play(0) {
        Ok(window) => window.recording().len() == size,
        Err(fault) => {
            assert_eq!(fault, WindowFault::TooLong);
            false
        }
    }
}

/// The calls of a watch by which it has `handles` handles: it opens with two.
fn kept_of(handles: u64) -> Kept {
    let mut flight = Flight::open(Global, Spec::Watch(0), 524_288).unwrap();
    for made in 2..handles {
        let call = ChanCall::W(WCall::CloneSender(0));
        let new = ChanReply::W(WReply::New(made as u32));
        assert_eq!(flight.call(0, made, call), Ok(new));
    }
    flight.kept(Global).unwrap()
}

/// A window of a channel with `size` handles. Two more are for those that a channel opens with.
pub fn window_handles(size: u64) -> bool {
    let mut kept = kept_of(size);
    kept.skip(Global, kept.len()).unwrap();
    match kept.lead(Global, 1, 0) {
        Ok(lead) => lead.len() == size + 1,
        Err(fault) => {
            assert_eq!(fault, WindowFault::TooLong);
            false
        }
    }
}

/// A window of a channel that has created `size` handles, half of them in the window. The lead creates one more.
pub fn window_creates(size: u64) -> bool {
    let before = size.div_ceil(2);
    let mut kept = kept_of(size);
    kept.skip(Global, before - 2).unwrap();
    match kept.lead(Global, 1, 0) {
        Ok(lead) => {
            let window = lead.play(before + 3).unwrap();
            window.number(size as u32 - 1) == Some(size as u32)
        }
        Err(fault) => {
            assert_eq!(fault, WindowFault::TooLong);
            false
        }
    }
}

/// A lead of `size` sends: the receiver has received none of them, and the one call of the window asks it.
pub fn lead_sends(size: u64) -> bool {
    let mut flight = Flight::open(Global, Spec::Broadcast(1), 524_288).unwrap();
    for value in 1..=size {
        assert_eq!(flight.call(0, value, send(value)), Ok(SENT));
    }
    let told = ChanReply::B(BReply::Lagged(size - 1));
    let asked = flight.call(0, 0, ChanCall::B(BCall::TryRecv(1)));
    assert_eq!(asked, Ok(told));
    let mut kept = flight.kept(Global).unwrap();
    kept.skip(Global, kept.len() - 1).unwrap();
    match kept.lead(Global, 1, 0) {
        Ok(lead) => lead.len() == size,
        Err(fault) => {
            assert_eq!(fault, WindowFault::TooLong);
            false
        }
    }
}

/// A flight goes on from a recording whose one call has this stamp.
pub fn flight_stamps(size: u64) -> bool {
    let mut recording = Recording::open(Global, TWO[0]).unwrap();
    recording.call(0, size - 1, send(1)).unwrap();
    let flight = Flight::of(Global, &recording, 2);
    is_taken(flight)
}

/// A window whose one call gets this stamp.
pub fn window_stamps(size: u64) -> bool {
    const STAMP: u64 = 1 << 61;
    let mut flight = Flight::open(Global, TWO[0], 2).unwrap();
    assert_eq!(flight.call(0, STAMP - 1, send(1)), Ok(SENT));
    let lead = flight.kept(Global).unwrap().lead(Global, 1, 0).unwrap();
    match lead.play(size - STAMP) {
        Ok(window) => window.recording().len() == 1,
        Err(fault) => {
            assert_eq!(fault, WindowFault::TooLong);
            false
        }
    }
}
