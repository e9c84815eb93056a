//! What is read, what is found in random runs, beside a model, and the faults of texts.

mod model;

use super::{LossEnd, Run, RunEntry, Spec, TextFault, values_between};
use crate::operation::Operation;
use crate::random_journals::{random_channels, random_journal, random_of, runs, text_of};
use crate::reply::Reply;
use model::Model;
use std::process::Command;
use yovanelum_core::source::rw_recording::Recording;

/// Asserts that the program `ttd` accepts the journal text, which has this many entries, where a
/// program can be started.
fn assert_accepted(text: &str, entries: u64) {
    let Some(ttd) = crate::console::ttd() else {
        return;
    };
    let path = crate::temporary::path("cut.journal");
    std::fs::write(&path, text).unwrap();
    let judged = Command::new(ttd).arg("check").arg(&path).output().unwrap();
    let said = String::from_utf8_lossy(&judged.stdout);
    assert_eq!(said, format!("ok {entries}\n"), "{text}");
    std::fs::remove_file(path).unwrap();
}

#[test]
fn cuts_of_random_runs_are_journals_of_their_first_entries() {
    for seed in 0..runs() {
        let mut random = random_of(seed);
        let channels = random_channels(&mut random);
        let whole = text_of(&channels, u64::MAX);
        assert_accepted(&whole, channels.iter().map(Recording::len).sum());
        let last = u64::from(random.below(101));
        let is_in = |line: &&str| match line.split_once(' ') {
            Some((stamp, _)) => {
                stamp.parse().is_ok_and(|stamp: u64| stamp <= last) || !line.contains(" = ")
            }
            None => true,
        };
        let wanted: String = whole
            .lines()
            .filter(is_in)
            .map(|line| format!("{line}\n"))
            .collect();
        assert_eq!(text_of(&channels, last), wanted);
    }
}

#[test]
fn what_is_found_in_random_runs_is_what_the_definitions_say() {
    let (mut told, mut dropped, mut open, mut missed, mut read_on) = (0, 0, 0, 0, 0);
    for seed in 0..runs() {
        let text = random_journal(seed);
        let model = Model::of(&text);
        let wanted = model.findings();
        let run = Run::read(text.as_bytes()).unwrap();
        let found = run.findings().unwrap();
        assert_eq!(found.entries(), run.len());
        assert_eq!(found.losses(), wanted.losses, "{text}");
        assert_eq!(found.totals(), wanted.totals, "{text}");
        assert_eq!(found.closings(), wanted.closings, "{text}");
        assert_eq!(found.late(), wanted.late, "{text}");
        assert_eq!(found.starts(), wanted.starts, "{text}");
        assert_eq!(found.receipts(), wanted.receipts, "{text}");
        let traffic = run.traffic(&vec![true; run.specs().len()]).unwrap();
        for totals in &wanted.totals {
            let name = (totals.channel, totals.receiver);
            let channel = traffic[name.0 as usize].as_ref().unwrap();
            let life = &channel.lives()[name.1 as usize];
            let end = life.dropped().unwrap_or(run.len());
            let came = values_between(channel.values(), life.made(), end);
            assert_eq!(came, model.came_to(name), "{text}");
        }
        for loss in &wanted.losses {
            match loss.end {
                LossEnd::Told(_) => told += 1,
                LossEnd::Dropped(_) => dropped += 1,
                LossEnd::Open => open += 1,
            }
        }
        for after in &wanted.late {
            missed += u64::from(after.told.is_none());
            read_on += u64::from(after.read_on > 0);
        }
    }
    // Each kind of end is frequent, so the comparison isn't empty.
    for count in [told, dropped, open, missed, read_on] {
        assert!(
            count >= runs() / 40,
            "{told} {dropped} {open} {missed} {read_on}"
        );
    }
}

/// Asserts that the text has this fault.
fn assert_fault(text: &str, fault: TextFault) {
    let refused = Run::read(text.as_bytes()).err();
    assert_eq!(refused, Some(fault), "{text}");
}

#[test]
fn the_first_fault_of_a_text_is_the_one_that_the_formats_name() {
    use TextFault::{LimitExceeded, Malformed, Truncated, WrongOrder, WrongReply};
    for (text, fault) in [
        ("", Truncated),
        ("ttd-journal 3\n", Malformed(1)),
        ("ttd-journal 2\nsteps\n", Malformed(2)),
        ("ttd-journal 2\nbroadcast 0\n", LimitExceeded(2)),
        ("ttd-journal 2\nbroadcast 65537\n", LimitExceeded(2)),
        ("ttd-journal 2\nbroadcast 02\n", Malformed(2)),
        ("ttd-journal 2\nwatch 18446744073709551616\n", Malformed(2)),
        ("ttd-journal 2\nwatch 0\nsteps\nend", Truncated),
        ("ttd-journal 2\nwatch 0\nsteps\nend\n\n", Malformed(5)),
    ] {
        assert_fault(text, fault);
    }
    let head = "ttd-journal 2\nbroadcast 2\nsteps\n1 0 0 send 0 5 = sent 1\n";
    for (line, fault) in [
        ("1 1 0 recv 1 = value 5", WrongOrder(5)),
        ("2 1 0 recv 1 = value 6", WrongReply(5)),
        ("2 1 0 recv 0 = closed", WrongReply(5)),
        ("2 64 0 recv 1 = value 5", LimitExceeded(5)),
        ("4611686018427387905 0 0 recv 1 = value 5", LimitExceeded(5)),
        ("2 1 1 recv 1 = value 5", Malformed(5)),
        ("2 1 0 recv 1 = stored", Malformed(5)),
        ("2 1 0 changed 1 = done", Malformed(5)),
        ("2 1 0 recv 4294967296 = unknown", LimitExceeded(5)),
        ("2 1 0 recv 4294967296 = unknow", Malformed(5)),
        ("2 1 0 recv 1  = value 5", Malformed(5)),
        ("2 1 0 downgrade 0 = new 2", Truncated),
    ] {
        assert_fault(&format!("{head}{line}\n"), fault);
    }
    let first = head.replace("journal 2", "journal 1");
    assert_fault(&format!("{first}2 1 0 downgrade 0 = new 2\n"), Malformed(5));
    assert_fault(&format!("{head}{}\n", "2".repeat(257)), LimitExceeded(5));
    assert_fault(&format!("{head}{}", "2".repeat(257)), LimitExceeded(5));
    let channels = "watch 0\n".repeat(65);
    assert_fault(&format!("ttd-journal 2\n{channels}"), LimitExceeded(66));
}

const TEXT: &str = "ttd-journal 2\nbroadcast 3\nwatch 7\nsteps\n\
    2 1 0 send 0 5 = sent 1\n2 0 1 modify 0 9 no = told no\n7 0 0 drop 1 = dropped\nend\n";

#[test]
fn specs_and_entries_are_those_of_the_text() {
    let run = Run::read(TEXT.as_bytes()).unwrap();
    assert_eq!(run.specs(), [Spec::Broadcast(3), Spec::Watch(7)]);
    let entry = |stamp, actor, channel, handle, word, value, reply| RunEntry {
        stamp,
        actor,
        channel,
        handle,
        word,
        value,
        reply,
    };
    let wanted = [
        entry(2, 1, 0, 0, Operation::Send, Some(5), Reply::Sent(1)),
        entry(2, 0, 1, 0, Operation::Modify, Some(9), Reply::Told(0)),
        entry(7, 0, 0, 1, Operation::Drop, None, Reply::Dropped),
    ];
    assert_eq!(run.len(), 3);
    assert!(run.entries().eq((1..).zip(wanted)));
    assert_eq!(run.entry(2), wanted[1]);
}

#[test]
fn entries_are_found_by_stamps() {
    let run = Run::read(TEXT.as_bytes()).unwrap();
    let places = [0, 1, 2, 6, 7, 8].map(|stamp| run.place_of_stamp(stamp));
    assert_eq!(places, [0, 0, 2, 2, 3, 3]);
}
