//! What of the core the tests in `tests/` reach late or not at all.

use super::{Actor, Caller, Cut, CutFault, OpenFault, Recording, Spec};
use yovanelum_record::reply::Reply;

fn caller(actor: usize, clock: u64) -> Caller {
    Caller {
        actor: Actor::of(actor),
        clock,
    }
}

fn open(spec: Spec<u64>) -> Recording {
    Recording::open(spec).unwrap()
}

/// Returns the text of what these channels have recorded up to this stamp.
fn cut(channels: &[Recording], last: u64) -> Result<String, CutFault> {
    let mut cut = Cut::new();
    for channel in channels {
        cut.add(channel, last)?;
    }
    cut.run()
        .map(|run| String::from_utf8(run.text().unwrap()).unwrap())
}

#[test]
fn questions_leave_no_entry() {
    let mut channel = open(Spec::Broadcast(4));
    assert_eq!(channel.queued(), 0);
    for value in 0..6 {
        let sent = channel.broadcast_send(caller(0, value), 0, value);
        assert_eq!(sent, Reply::Sent(1));
    }
    assert_eq!((channel.queued(), channel.unread(1)), (4, 6));
    let counts = (
        channel.senders(),
        channel.weak_senders(),
        channel.receivers(),
    );
    assert_eq!((counts, channel.entries()), ((1, 0, 1), 6));
    let mut watch = open(Spec::Watch(7));
    assert!(watch.seen(1));
    assert_eq!(watch.watch_send(caller(0, 0), 0, 8), Reply::Stored);
    assert_eq!((watch.seen(1), watch.entries()), (false, 1));
}

#[test]
fn where_recording_ended_calls_go_on_without_entries() {
    let mut channel = open(Spec::Broadcast(2));
    assert_eq!(channel.broadcast_send(caller(0, 0), 0, 5), Reply::Sent(1));
    channel.end();
    assert_eq!(channel.broadcast_send(caller(0, 1), 0, 6), Reply::Sent(1));
    assert_eq!(channel.broadcast_recv(caller(0, 2), 1), Reply::Value(5));
    assert_eq!(channel.broadcast_recv(caller(0, 3), 1), Reply::Value(6));
    assert_eq!(channel.broadcast_recv(caller(0, 4), 1), Reply::Waits);
    assert_eq!(channel.watch_borrow(caller(0, 5), 1), Reply::NoChannel);
    assert_eq!((channel.entries(), channel.queued()), (1, 0));
    let text = cut(&[channel], u64::MAX).unwrap();
    assert!(
        text.ends_with("steps\n1 0 0 send 0 5 = sent 1\nend\n"),
        "{text}"
    );
}

#[test]
fn a_broadcast_has_a_capacity_from_1_to_65536_rounded_up() {
    for capacity in [0, 65_537, u32::MAX] {
        let fault = Recording::open(Spec::Broadcast(capacity)).err();
        assert_eq!(fault, Some(OpenFault::BadCapacity(0)));
    }
    for capacity in [1, 2, 3, 4, 5, 33_000, 65_535, 65_536] {
        let mut channel = open(Spec::Broadcast(capacity));
        let retained = u64::from(capacity).next_power_of_two();
        for value in 0..retained + 3 {
            channel.broadcast_send(caller(0, value), 0, value);
        }
        let mut receive = || channel.broadcast_recv(caller(0, retained + 3), 1);
        assert_eq!(receive(), Reply::Lagged(3));
        assert_eq!(receive(), Reply::Value(3));
    }
}

#[test]
fn the_65537th_handle_is_refused() {
    let mut channel = open(Spec::Broadcast(2));
    let nobody = caller(0, 0);
    assert_eq!(channel.broadcast_downgrade(nobody, 0), Reply::New(2));
    for made in 3..65_536 {
        let reply = channel.broadcast_subscribe(nobody, 0);
        assert_eq!(reply, Reply::New(made.into()));
        assert_eq!(channel.broadcast_drop(nobody, made), Reply::Dropped);
    }
    let replies = [
        channel.broadcast_subscribe(nobody, 0),
        channel.broadcast_clone_sender(nobody, 0),
        channel.broadcast_downgrade(nobody, 0),
        channel.broadcast_resubscribe(nobody, 1),
        channel.broadcast_upgrade(nobody, 2),
        channel.broadcast_clone_weak(nobody, 2),
    ];
    assert_eq!(replies, [Reply::TooManyHandles; 6]);
    // The kind of the handle is checked before the limit, and the limit before the senders.
    assert_eq!(channel.broadcast_upgrade(nobody, 0), Reply::WrongKind);
    assert_eq!(channel.broadcast_subscribe(nobody, 65_536), Reply::Unknown);
    assert_eq!(channel.broadcast_drop(nobody, 0), Reply::Dropped);
    assert_eq!(channel.broadcast_upgrade(nobody, 2), Reply::TooManyHandles);
    let text = cut(&[channel], u64::MAX).unwrap();
    assert!(text.contains(" upgrade 2 = too-many-handles\n"));
}

#[test]
#[cfg_attr(miri, ignore = "Miri needs hours for so many calls")]
fn a_full_journal_refuses_calls_until_recording_ends() {
    let mut channel = open(Spec::Broadcast(4));
    for value in 0..1_048_576 {
        let sent = channel.broadcast_send(caller(0, value), 0, value);
        assert_eq!(sent, Reply::Sent(1));
    }
    // Calls that would wait, or that no handle makes, are refused for the journal too.
    let replies = [
        channel.broadcast_send(caller(0, 0), 0, 0),
        channel.broadcast_recv(caller(0, 0), 9),
        channel.watch_send(caller(0, 0), 0, 0),
    ];
    assert_eq!(replies, [Reply::JournalFull; 3]);
    channel.end();
    assert_eq!(channel.broadcast_send(caller(0, 7), 0, 7), Reply::Sent(1));
    let lagged = channel.broadcast_recv(caller(0, 8), 1);
    assert_eq!(lagged, Reply::Lagged(1_048_577 - 4));
    assert_eq!(channel.broadcast_recv(caller(0, 9), 9), Reply::Unknown);
    let text = cut(&[channel], 2).unwrap();
    assert!(text.ends_with("\n2 0 0 send 0 1 = sent 1\nend\n"));
}

#[test]
fn the_greatest_stamp_is_2_to_the_62nd() {
    let most = 1u64 << 62;
    let mut watch = open(Spec::Watch(1));
    let mut borrow = |clock| watch.watch_borrow(caller(0, clock), 1);
    assert_eq!(borrow(most - 3), Reply::Value(1));
    // The stamp is one more than the last one, which is greater than the clock.
    assert_eq!(borrow(0), Reply::Value(1));
    for clock in [most, most + 1, u64::MAX] {
        assert_eq!(borrow(clock), Reply::JournalFull);
    }
    assert_eq!(borrow(5), Reply::Value(1));
    assert_eq!(borrow(5), Reply::JournalFull);
    let channels = [watch];
    let text = cut(&channels, most - 1).unwrap();
    assert_eq!(text.matches(" = ").count(), 2);
    let text = cut(&channels, u64::MAX).unwrap();
    assert!(text.contains(&format!("\n{most} 0 0 borrow 1 = value 1\nend\n")));
}

#[test]
fn channels_are_merged_by_stamp_and_then_by_number() {
    assert_eq!(cut(&[], 9), Err(CutFault::NoChannels));
    let mut channels = [open(Spec::Broadcast(3)), open(Spec::Watch(4))];
    channels[1].watch_modify(caller(1, 0), 0, false, 7);
    channels[0].broadcast_send(caller(0, 0), 0, 7);
    channels[0].broadcast_sender_len(caller(2, 8), 0);
    let text = "ttd-journal 2\nbroadcast 3\nwatch 4\nsteps\n1 0 0 send 0 7 = sent 1\n\
        1 1 1 modify 0 7 no = told no\n9 2 0 sender-len 0 = count 1\nend\n";
    assert_eq!(cut(&channels, u64::MAX).as_deref(), Ok(text));
    // Actor 2 has stamp 9 on channel 0 already.
    channels[1].watch_borrow(caller(2, 8), 0);
    assert_eq!(cut(&channels, u64::MAX), Err(CutFault::OutOfOrder));
    assert!(cut(&channels, 8).is_ok());
}

#[test]
fn a_cut_has_64_channels_at_most() {
    let mut channels: Vec<_> = (0..64).map(|value| open(Spec::Watch(value))).collect();
    let text = cut(&channels, 0).unwrap();
    assert!(text.ends_with("\nwatch 63\nsteps\nend\n"));
    channels.push(open(Spec::Watch(64)));
    assert_eq!(cut(&channels, 0), Err(CutFault::TooManyChannels));
}

#[test]
fn a_journal_and_its_text_grow_past_a_large_block() {
    const CALLS: u64 = 70_000;
    let mut channel = open(Spec::Broadcast(1));
    for value in 0..CALLS {
        let sent = channel.broadcast_send(caller(0, value), 0, value);
        assert_eq!(sent, Reply::Sent(1));
    }
    assert_eq!(channel.entries(), CALLS);
    let text = cut(&[channel], u64::MAX).unwrap();
    assert!(text.len() > 2 << 20, "{} bytes", text.len());
    let entries = text.lines().filter(|line| line.contains(" = "));
    let wanted = (0..CALLS).map(|value| format!("{} 0 0 send 0 {value} = sent 1", value + 1));
    assert!(entries.eq(wanted));
}
