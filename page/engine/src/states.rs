//! The state of all channels at a place, in numbers: what the console's `state json` writes, but of
//! the values that a broadcast retains the newest alone, since it may retain 65,536 at each of very
//! many places.

use crate::part::{NONE, word, word_or_none};
use yovanelum_reader::debugger::{Broadcast, Channel, Watch};

/// How many of the retained values the page gets.
const NEWEST: u64 = 16;

const BROADCAST: u32 = 0;
const WATCH: u32 = 1;

/// Appends the state at a place: the place, and for each channel its kind, and whether it is
/// closed.
///
/// Of a broadcast follow its capacity, how many values were sent, and how many are retained; the
/// newest of these; its senders, its weak senders and its receivers, each with position, unread and
/// lag. Of a watch follow its value and version, its senders, and its receivers, each with the
/// version that it marked, or `NONE`, and whether it has seen the value. Each list has its length
/// before it, and a value is two numbers, the lower one first.
pub(crate) fn push<'a>(
    out: &mut Vec<u32>,
    place: u64,
    channels: impl Iterator<Item = Channel<'a>>,
) {
    out.push(word(place));
    for channel in channels {
        match &channel {
            Channel::Broadcast(it) => push_broadcast(out, &channel, it),
            Channel::Watch(it) => push_watch(out, &channel, it),
        }
    }
}

fn push_broadcast(out: &mut Vec<u32>, channel: &Channel<'_>, it: &Broadcast<'_>) {
    let retained = it.sent().min(it.capacity());
    let newest = retained.saturating_sub(NEWEST)..retained;
    out.extend([
        BROADCAST,
        channel.is_closed().into(),
        word(it.capacity()),
        word(it.sent()),
        word(retained),
    ]);
    push_list(out, newest.filter_map(|index| it.value(index)).map(halves));
    push_list(out, channel.senders().map(|sender| [sender]));
    push_list(out, channel.weak_senders().map(|sender| [sender]));
    push_list(
        out,
        channel.receivers().filter_map(|handle| {
            it.receiver(handle)
                .map(|at| [handle, word(at.position), word(at.unread), word(at.lag)])
        }),
    );
}

fn push_watch(out: &mut Vec<u32>, channel: &Channel<'_>, it: &Watch<'_>) {
    out.extend([WATCH, channel.is_closed().into()]);
    out.extend(halves(it.value()));
    out.push(word(it.version()));
    push_list(out, channel.senders().map(|sender| [sender]));
    push_list(
        out,
        channel.receivers().filter_map(|handle| {
            it.receiver(handle)
                .map(|at| [handle, word_or_none(at.mark), at.is_seen.into()])
        }),
    );
}

fn halves(value: u64) -> [u32; 2] {
    [value as u32, (value >> 32) as u32]
}

/// Appends how many items there are, and these.
fn push_list<const N: usize>(out: &mut Vec<u32>, items: impl Iterator<Item = [u32; N]>) {
    let at = out.len();
    out.push(NONE);
    let mut count = 0;
    for item in items {
        out.extend(item);
        count += 1;
    }
    out[at] = count;
}
