//! The texts of faults.

use proved::Global;
use proved::rw_broadcast::{OpenFault as BroadcastOpenFault, Refusal, SendError, TryRecvError};
use proved::rw_desk::{DeskFault, DeskOpenFault};
use proved::rw_handles::HandleFault;
use proved::rw_journal::{MergeFault, PushFault, TakeFault};
use proved::rw_law::NoMemory;
use proved::rw_lines::{ShortWrite, StreamFault};
use proved::rw_navigator::OutOfRange;
use proved::rw_script::{RunFault, ScriptFault, ScriptFaultKind};
use proved::rw_text::{TextFault, WriteFault};
use proved::rw_watch::RecvError;
use proved::rw_words::WordFault;
use proved::rw_world::OpenFault;
use std::fmt::Display;

/// Asserts that each fault has its text.
fn say<F: Display>(faults: &[(F, &str)]) {
    for (fault, text) in faults {
        says(fault, text);
    }
}

/// Asserts that the fault has this text.
fn says<F: Display>(fault: &F, text: &str) {
    let said = format!("{fault}");
    assert_eq!(said.as_str(), text);
    drop(said);
}

static HANDLES: [(HandleFault, &str); 3] = [
    (HandleFault::Unknown, "unknown handle"),
    (HandleFault::Gone, "handle is gone"),
    (HandleFault::WrongKind, "wrong kind of handle"),
];

static REFUSALS: [(Refusal, &str); 4] = [
    (Refusal::Handle(HandleFault::Gone), "handle is gone"),
    (Refusal::TooManyHandles, "too many handles"),
    (Refusal::Waits, "would wait"),
    (Refusal::OtherCall, "reply of another call"),
];

static SENDS: [(SendError<u64>, &str); 2] = [
    (SendError::NoReceivers(7), "no receivers"),
    (
        SendError::Refused(Refusal::TooManyHandles),
        "too many handles",
    ),
];

static RECEIVES: [(TryRecvError, &str); 4] = [
    (TryRecvError::Empty, "channel empty"),
    (TryRecvError::Closed, "channel closed"),
    (TryRecvError::Lagged(18), "channel lagged by 18"),
    (
        TryRecvError::Refused(Refusal::OtherCall),
        "reply of another call",
    ),
];

static CHANGES: [(RecvError, &str); 2] = [
    (RecvError::Closed, "channel closed"),
    (RecvError::Refused(Refusal::Waits), "would wait"),
];

static BROADCAST_OPENINGS: [(BroadcastOpenFault, &str); 2] = [
    (BroadcastOpenFault::BadCapacity, "bad capacity"),
    (BroadcastOpenFault::NoMemory, "no memory"),
];

#[test]
fn faults_of_channels() {
    let Global = Global;
    say(&HANDLES);
    say(&REFUSALS);
    say(&SENDS);
    say(&RECEIVES);
    say(&CHANGES);
    say(&BROADCAST_OPENINGS);
    says(&NoMemory, "no memory");
}

static OPENINGS: [(OpenFault, &str); 4] = [
    (OpenFault::NoChannels, "no channels"),
    (OpenFault::TooManyChannels, "too many channels"),
    (OpenFault::BadCapacity(63), "bad capacity of channel 63"),
    (OpenFault::NoMemory, "no memory"),
];

static TAKES: [(TakeFault, &str); 4] = [
    (TakeFault::JournalFull, "journal full"),
    (TakeFault::NoMemory, "no memory"),
    (TakeFault::Waits, "would wait"),
    (TakeFault::NoChannel, "no such channel"),
];

static PUSHES: [(PushFault, &str); 4] = [
    (PushFault::Limit, "limit exceeded"),
    (PushFault::Order, "wrong order"),
    (PushFault::NoMemory, "no memory"),
    (PushFault::Reply, "wrong reply"),
];

static MERGES: [(MergeFault, &str); 2] = [
    (
        MergeFault::OutOfOrder(1, 0),
        "entry 0 of channel 1 is out of order",
    ),
    (MergeFault::NoMemory, "no memory"),
];

static RUNS: [(RunFault, &str); 3] = [
    (RunFault::NoMemory, "no memory"),
    (RunFault::NoThread, "no thread"),
    (RunFault::Strayed, "strayed"),
];

#[test]
fn faults_of_books_and_runs() {
    let Global = Global;
    say(&OPENINGS);
    say(&TAKES);
    say(&PUSHES);
    say(&MERGES);
    say(&RUNS);
    says(&OutOfRange, "out of range");
}

static DESK_CALLS: [(DeskFault, &str); 4] = [
    (DeskFault::NoChannel, "no such channel"),
    (DeskFault::JournalFull, "journal full"),
    (DeskFault::NoMemory, "no memory"),
    (DeskFault::Waits, "would wait"),
];

static DESK_OPENINGS: [(DeskOpenFault, &str); 2] = [
    (DeskOpenFault::BadActors, "bad number of actors"),
    (DeskOpenFault::World(OpenFault::NoChannels), "no channels"),
];

#[test]
fn faults_of_desks() {
    say(&DESK_CALLS);
    say(&DESK_OPENINGS);
}

static STREAMS: [(StreamFault, &str); 4] = [
    (StreamFault::Read, "read fault"),
    (StreamFault::Write, "write fault"),
    (StreamFault::TooMuch, "read fault"),
    (StreamFault::NoMemory, "no memory"),
];

static WORDS: [(WordFault, &str); 3] = [
    (WordFault::WrongWord, "wrong word"),
    (WordFault::BadArguments, "bad arguments"),
    (WordFault::HandleTooLarge, "handle too large"),
];

static TEXTS: [(TextFault, &str); 6] = [
    (TextFault::Malformed(4), "malformed 4"),
    (TextFault::LimitExceeded(5), "limit-exceeded 5"),
    (TextFault::WrongOrder(6), "wrong-order 6"),
    (TextFault::WrongReply(7), "wrong-reply 7"),
    (TextFault::Truncated, "truncated"),
    (TextFault::NoMemory, "no memory"),
];

/// Asserts that the fault of a journal text has this line.
fn reports(fault: TextFault, line: &str) {
    let told = fault.line(Global).unwrap();
    assert_eq!(told.as_str(), line);
}

const SCRIPT: ScriptFault = ScriptFault {
    line: 2,
    kind: ScriptFaultKind::BadArguments,
};

#[test]
fn faults_of_texts() {
    let Global = Global;
    say(&STREAMS);
    let short = ShortWrite { written: 3 };
    says(&short, "write fault after 3 bytes");
    say(&WORDS);
    say(&TEXTS);
    says(&SCRIPT, "script fault 2 bad-arguments");
    says(&WriteFault(109), "write fault after 109 bytes");
    let reply = TextFault::WrongReply(7);
    reports(reply, "journal fault wrong-reply 7\n");
}
