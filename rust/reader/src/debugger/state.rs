//! The state of all channels as the console prints it.

use super::{Broadcast, Channel, Walk, Watch};
use std::fmt;

/// What all channels are at the place of a walk. It is printed as the `state` of the console of
/// `ttd`.
#[derive(Clone, Copy)]
pub struct State<'a>(pub(super) &'a Walk);

impl fmt::Display for State<'_> {
    fn fmt(&self, f: &mut fmt::Formatter<'_>) -> fmt::Result {
        let State(walk) = self;
        writeln!(f, "place {} of {}", walk.place(), walk.len())?;
        let numbers = 0..walk.channels();
        let mut channels = numbers.filter_map(|number| Some((number, walk.channel(number)?)));
        channels.try_for_each(|(number, channel)| write_channel(f, number, &channel))
    }
}

fn write_channel(f: &mut fmt::Formatter<'_>, number: u32, channel: &Channel<'_>) -> fmt::Result {
    let made = channel.made();
    let open = if channel.is_closed() {
        "closed"
    } else {
        "open"
    };
    match channel {
        Channel::Broadcast(it) => {
            let (capacity, sent, queued) = (it.capacity(), it.sent(), it.queued());
            writeln!(
                f,
                "channel {number} broadcast capacity {capacity} sent {sent} queued {queued} made {made} {open}"
            )?;
            write_numbers(f, "window", it.window())?;
        }
        Channel::Watch(it) => writeln!(
            f,
            "channel {number} watch version {} value {} made {made} {open}",
            it.version(),
            it.value()
        )?,
    }
    write_numbers(f, "senders", channel.senders().map(u64::from))?;
    let mut weak = channel.weak_senders().map(u64::from).peekable();
    if weak.peek().is_some() {
        write_numbers(f, "weak", weak)?;
    }
    let mut receivers = channel.receivers();
    receivers.try_for_each(|handle| match channel {
        Channel::Broadcast(channel) => write_reader(f, channel, handle),
        Channel::Watch(channel) => write_looker(f, channel, handle),
    })
}

fn write_numbers(
    f: &mut fmt::Formatter<'_>,
    label: &str,
    mut numbers: impl Iterator<Item = u64>,
) -> fmt::Result {
    f.write_str(label)?;
    numbers.try_for_each(|number| write!(f, " {number}"))?;
    f.write_str("\n")
}

fn write_reader(f: &mut fmt::Formatter<'_>, channel: &Broadcast<'_>, handle: u32) -> fmt::Result {
    let Some(it) = channel.receiver(handle) else {
        return Ok(());
    };
    let (position, unread, lag) = (it.position, it.unread, it.lag);
    writeln!(
        f,
        "receiver {handle} position {position} unread {unread} lag {lag}"
    )
}

fn write_looker(f: &mut fmt::Formatter<'_>, channel: &Watch<'_>, handle: u32) -> fmt::Result {
    let Some(it) = channel.receiver(handle) else {
        return Ok(());
    };
    let mark = it.mark.map_or("none".to_string(), |mark| mark.to_string());
    let seen = if it.is_seen { "seen" } else { "unseen" };
    writeln!(f, "receiver {handle} mark {mark} {seen}")
}
