//! The strips below a fact in a terminal: what each of its receivers had to receive after each
//! call, as the page draws it.

use super::colours::Colours;
use super::wrapping::columns_of;
use crate::account::{Fact, FactStep};
use yovanelum_core::shim::alloc::Global;
use yovanelum_core::source::rw_findings::{Measure, Stretches, peaks_of};
use yovanelum_core::source::rw_handles::Kind;
use yovanelum_record::journal::{Run, Spec};
use yovanelum_record::listed::{IntoList, Keep, PushAll};
use yovanelum_record::sidecar::{Json, Sidecar};
use yovanelum_record::visible;

/// From nothing to receive to all that the channel retains.
const BARS: [char; 8] = ['▁', '▂', '▃', '▄', '▅', '▆', '▇', '█'];

/// Where values were overwritten that the receiver hasn't been told of.
const LOST: char = '▒';

/// How wide the strips are at most, with the names before them.
const SHOWN_COLUMNS: usize = 80;

/// How many columns of calls there are at least.
const LEAST_CALLS: usize = 8;

/// How many receivers of a channel have a strip.
const SHOWN_RECEIVERS: usize = 8;

/// How wide a name is at most.
const SHOWN_NAME: usize = 20;

/// Draws the receivers that facts of a run tell of.
pub struct Strips<'a> {
    pub(super) run: &'a Run,
    pub(super) names: &'a Sidecar,
    pub(super) colours: Colours,
    /// How wide the terminal is.
    pub(super) width: usize,
}

/// A receiver of a channel, and between which places it is there.
struct Receiver {
    number: u32,
    name: String,
    made: u64,
    dropped: u64,
}

/// What has one colour.
#[derive(PartialEq)]
enum Shade {
    Lost,
    Nothing,
    Level,
}

impl Shade {
    fn of(cell: char) -> Shade {
        match cell {
            LOST => Shade::Lost,
            cell if cell == BARS[0] || cell == ' ' => Shade::Nothing,
            _ => Shade::Level,
        }
    }
}

impl Strips<'_> {
    /// Returns the lines below a fact. There are none below one that tells of no receiver, and none
    /// where there is no memory for them.
    pub(super) fn below(&self, fact: &Fact) -> Vec<String> {
        self.drawn(fact).unwrap_or_default()
    }

    fn drawn(&self, fact: &Fact) -> Option<Vec<String>> {
        let channel = number(fact, "channel")?;
        let mut receivers = self.receivers(fact, channel)?;
        let more = receivers.len().saturating_sub(SHOWN_RECEIVERS);
        receivers.truncate(SHOWN_RECEIVERS);
        let widths = receivers.iter().map(|it| columns_of(&it.name));
        let name_width = widths.max()?;
        let stretches = self.stretches(fact, name_width);
        let (mut lines, has_lost) = self.rows(channel, &receivers, name_width, stretches)?;
        lines.push_all((more > 0).then(|| format!("  and {more} more")));
        lines.push_all(marks(fact, name_width, stretches));
        lines.push(self.caption(fact, (channel, has_lost), stretches));
        Some(lines)
    }

    /// Returns the receiver that a fact tells of, or else all that its channel had, without those
    /// that only the lead of a window has.
    fn receivers(&self, fact: &Fact, channel: u32) -> Option<Vec<Receiver>> {
        let mut asked = vec![false; self.run.specs().len()];
        *asked.get_mut(channel as usize)? = true;
        let traffic = self.run.traffic(&asked).ok()?;
        let traffic = traffic.into_iter().nth(channel as usize)??;
        let mut all = vec![];
        for (number, life) in (0..).zip(traffic.lives()) {
            let dropped = life.dropped().unwrap_or(u64::MAX);
            if life.kind() == Kind::Receiver && dropped > self.names.lead() {
                all.push(Receiver {
                    number,
                    name: self.name(fact, channel, number),
                    made: life.made(),
                    dropped,
                });
            }
        }
        let told = number(fact, "receiver").or_else(|| number(fact, "handle"));
        if let Some(told) = told.filter(|told| all.iter().any(|it| it.number == *told)) {
            all.keep(|it| it.number == told);
        }
        Some(all)
    }

    /// Returns what a receiver is called: as in the fact, where that tells of it.
    fn name(&self, fact: &Fact, channel: u32, receiver: u32) -> String {
        let told = fact.members.iter().find(|(key, _)| *key == "name");
        let told = told.filter(|_| number(fact, "receiver") == Some(receiver));
        let own = self.names.handles.get(&channel.into());
        let own = own.and_then(|handles| handles.get(&receiver.into()));
        let name = match (told, own) {
            (Some((_, Json::Text(name))), _) => name.clone(),
            (_, Some(name)) => visible::name(name),
            _ => format!(
                "receiver {}",
                self.names.handle_number(channel, receiver.into())
            ),
        };
        shortened(&name)
    }

    /// Returns the stretches of calls that fit beside names of this width, a column each: of the
    /// whole run, or where that has more calls, around the steps of the fact.
    fn stretches(&self, fact: &Fact, name_width: usize) -> Stretches {
        let room = self.width.min(SHOWN_COLUMNS).saturating_sub(name_width + 4);
        let room = room.max(LEAST_CALLS) as u64;
        let (lead, len) = (self.names.lead().min(self.run.len()), self.run.len());
        let (from, to) = if len - lead < room {
            (lead, len)
        } else {
            let places = fact.steps.iter().map(|step| step.place.clamp(lead, len));
            let first = places.clone().min().unwrap_or(lead);
            around(first, places.max().unwrap_or(len), (lead, len), room)
        };
        let each = (to - from + 1).div_ceil(room);
        Stretches {
            from,
            each,
            count: (to - from + 1).div_ceil(each),
        }
    }

    /// Returns a line for each receiver, and whether values were overwritten in one of them.
    fn rows(
        &self,
        channel: u32,
        receivers: &[Receiver],
        name_width: usize,
        stretches: Stretches,
    ) -> Option<(Vec<String>, bool)> {
        let peaks = |measure| peaks_of(Global, &self.run.0, channel, measure, stretches).ok();
        let is_watch = matches!(self.run.specs()[channel as usize], Spec::Watch(_));
        let level = if is_watch {
            Measure::Unseen
        } else {
            Measure::Unread
        };
        let (levels, lags) = (peaks(level)?, peaks(Measure::Lag)?);
        let mut has_lost = false;
        let rows = receivers.iter().map(|receiver| {
            let index = receiver.number as usize;
            let room = name_width - columns_of(&receiver.name);
            let most = self.most(channel);
            let cells = (0..stretches.count).map(|stretch| {
                let at = |row: &[u64]| row.get(stretch as usize).copied().unwrap_or(0);
                let first = stretches.from + stretch * stretches.each;
                match first + stretches.each > receiver.made && first < receiver.dropped {
                    false => ' ',
                    true if at(lags.row(index)) > 0 => LOST,
                    true => bar(at(levels.row(index)), most),
                }
            });
            let strip: String = cells.collect();
            has_lost |= strip.contains(LOST);
            let strip = self.coloured(strip.trim_end(), is_watch);
            format!("  {}{}  {strip}", receiver.name, " ".repeat(room))
        });
        Some((rows.listed(), has_lost))
    }

    /// Returns the greatest level of a receiver: what the channel retains, or of a watch 1.
    fn most(&self, channel: u32) -> u64 {
        match self.run.specs()[channel as usize] {
            Spec::Broadcast(capacity) => capacity.next_power_of_two().into(),
            Spec::Watch(_) => 1,
        }
    }

    /// Puts the parts of a strip into their colours, which are those of the page.
    fn coloured(&self, strip: &str, is_watch: bool) -> String {
        let cells: Vec<_> = strip.chars().listed();
        let parts = cells.chunk_by(|left, right| Shade::of(*left) == Shade::of(*right));
        let coloured = parts.map(|part| {
            let text: String = part.iter().collect();
            match Shade::of(part[0]) {
                Shade::Lost => self.colours.lost(&text),
                Shade::Nothing => text,
                Shade::Level if is_watch => self.colours.waiting(&text),
                Shade::Level => self.colours.unread(&text),
            }
        });
        coloured.collect()
    }

    /// Says what a column is, which calls the marks are at, and what isn't a level, or where there
    /// is nothing else, what the highest level is.
    fn caption(
        &self,
        fact: &Fact,
        (channel, has_lost): (u32, bool),
        stretches: Stretches,
    ) -> String {
        let each = match stretches.each {
            1 => String::new(),
            each => format!(", {each} a column"),
        };
        let from = match stretches.from {
            0 => "start".to_string(),
            from if from == self.names.lead() => "before the window".to_string(),
            from => visible::call(from),
        };
        let steps: Vec<_> = steps(fact, stretches).map(FactStep::name).listed();
        let marked = match &steps[..] {
            [] => String::new(),
            steps => format!("; ^ {}", steps.join(", ")),
        };
        let shown = match self.run.specs()[channel as usize] {
            Spec::Broadcast(_) if has_lost => "▒ overwritten".to_string(),
            Spec::Broadcast(_) => format!("█ {} to receive", self.most(channel)),
            Spec::Watch(_) => "█ not seen".to_string(),
        };
        let past = stretches.from + stretches.each * stretches.count;
        let last = visible::call(self.run.len().min(past - 1));
        format!("  {from} to {last}{each}{marked}; {shown}")
    }
}

/// Returns a number that is known of a fact.
fn number(fact: &Fact, key: &str) -> Option<u32> {
    let mut members = fact.members.iter();
    match members.find(|(name, _)| *name == key)? {
        (_, Json::Number(number)) => number.parse().ok(),
        _ => None,
    }
}

/// Returns the steps of a fact that are in the stretches, each place once.
fn steps(fact: &Fact, stretches: Stretches) -> impl Iterator<Item = &FactStep> {
    let steps = fact.steps.iter();
    steps.filter(move |step| step.place >= stretches.from)
}

/// Returns a line with a mark below the column of each step, unless there is no step.
fn marks(fact: &Fact, name_width: usize, stretches: Stretches) -> Option<String> {
    let columns = steps(fact, stretches).map(|step| (step.place - stretches.from) / stretches.each);
    let columns: Vec<_> = columns.listed();
    let last = columns.iter().max()?;
    let mark = |column| if columns.contains(&column) { '^' } else { ' ' };
    let marks: String = (0..=*last).map(mark).collect();
    Some(format!("{}{marks}", " ".repeat(name_width + 4)))
}

/// Returns between which places there is room for these two, with more before them than behind, or
/// where there is no room for all, a quarter as many at both sides. None is outside of `all`.
fn around(first: u64, last: u64, all: (u64, u64), room: u64) -> (u64, u64) {
    let between = last - first + 1;
    if between >= room {
        let more = between / 4;
        return (
            first.saturating_sub(more).max(all.0),
            (last + more).min(all.1),
        );
    }
    let from = first.saturating_sub((room - between) * 3 / 4).max(all.0);
    let to = (from + room - 1).min(all.1);
    ((to + 1 - room).max(all.0), to)
}

/// Returns the bar of a level: the lowest of 0, the highest of the most that there can be.
fn bar(level: u64, most: u64) -> char {
    let steps = BARS.len() as u64 - 1;
    BARS[(level.min(most) * steps).div_ceil(most) as usize]
}

/// Returns a name that is no wider than a name may be.
fn shortened(name: &str) -> String {
    if columns_of(name) <= SHOWN_NAME {
        return name.to_string();
    }
    let mut short = String::new();
    for c in name.chars() {
        if columns_of(&short) + columns_of(c.encode_utf8(&mut [0; 4])) >= SHOWN_NAME {
            break;
        }
        short.push(c);
    }
    short + "…"
}
