//! A run as its files say, by docs/use/FORMATS.md: the calls, and what the broadcast holds after
//! each.

use serde_json::Value;
use std::collections::BTreeMap;
use std::fs;
use std::path::Path;

/// A call, as the journal has it.
pub struct Call {
    pub actor: u32,
    pub channel: u32,
    pub method: String,
    handle: u32,
    /// The first word of its reply.
    pub reply: String,
    returned: Option<u64>,
    /// The line of the only source.
    pub line: u64,
}

/// A broadcast after a call: how many values were sent, and at which one each receiver is.
#[derive(Clone, Default)]
struct State {
    sent: u64,
    positions: BTreeMap<u32, u64>,
}

/// The calls of a run, and the state of its broadcast, channel 0, at each place.
pub struct Run {
    pub calls: Vec<Call>,
    pub actors: Vec<u32>,
    pub names: BTreeMap<u32, String>,
    capacity: u64,
    states: Vec<State>,
}

impl Run {
    pub fn read(journal: &Path) -> Run {
        let text = fs::read_to_string(journal).unwrap();
        let names = fs::read(journal.with_extension("names")).unwrap();
        let names: Value = serde_json::from_slice(&names).unwrap();
        let capacity = text
            .lines()
            .find_map(|line| line.strip_prefix("broadcast "));
        let capacity: u64 = capacity.unwrap().parse().unwrap();
        let mut of_channel = BTreeMap::new();
        let entries = text.lines().filter(|line| line.contains(" = "));
        let calls: Vec<_> = entries
            .map(|line| call(line, &names, &mut of_channel))
            .collect();
        let mut actors: Vec<_> = calls.iter().map(|call| call.actor).collect();
        actors.sort_unstable();
        actors.dedup();
        let of_actor = names["actors"].as_object().unwrap().iter();
        let mut run = Run {
            actors,
            names: of_actor
                .map(|(actor, name)| (actor.parse().unwrap(), name.as_str().unwrap().to_string()))
                .collect(),
            // tokio rounds it up.
            capacity: capacity.next_power_of_two(),
            states: vec![],
            calls,
        };
        run.states = run.all_states();
        run
    }

    /// Makes the calls on a broadcast, as tokio documents them.
    fn all_states(&self) -> Vec<State> {
        let first = State {
            sent: 0,
            positions: [(1, 0)].into(),
        };
        let mut states = vec![first];
        for call in &self.calls {
            let mut state = states[states.len() - 1].clone();
            if call.channel == 0 {
                state.make(call, self.capacity);
            }
            states.push(state);
        }
        states
    }

    pub fn len(&self) -> u32 {
        self.calls.len() as u32
    }

    /// The call that leads to a place, from 1 on.
    pub fn call(&self, place: u32) -> &Call {
        &self.calls[place as usize - 1]
    }

    /// The values that a receiver hasn't received, if it is there.
    pub fn unread(&self, place: u32, receiver: u32) -> Option<u64> {
        let state = &self.states[place as usize];
        Some(state.sent - state.positions.get(&receiver)?)
    }

    /// How many of these were overwritten.
    pub fn lag(&self, place: u32, receiver: u32) -> Option<u64> {
        Some(self.unread(place, receiver)?.saturating_sub(self.capacity))
    }

    /// How many values are retained for some receiver.
    pub fn queued(&self, place: u32) -> u64 {
        let receivers = self.states[place as usize].positions.keys();
        let unread = receivers.filter_map(|receiver| self.unread(place, *receiver));
        unread.max().unwrap_or(0).min(self.capacity)
    }

    /// The receivers of the broadcast that were ever there.
    pub fn receivers(&self) -> Vec<u32> {
        let made = self
            .calls
            .iter()
            .filter(|call| call.channel == 0 && call.reply == "new");
        let made = made.filter_map(|call| u32::try_from(call.returned?).ok());
        [1].into_iter().chain(made).collect()
    }

    /// The places that a condition on places holds at and didn't hold one before.
    pub fn becoming(&self, holds: impl Fn(u32) -> bool) -> Vec<u32> {
        let places = 1..=self.len();
        places
            .filter(|place| holds(*place) && !holds(place - 1))
            .collect()
    }

    /// The places that the calls lead to which meet a condition.
    pub fn places(&self, is_met: impl Fn(&Call) -> bool) -> Vec<u32> {
        let places = 1..=self.len();
        places.filter(|place| is_met(self.call(*place))).collect()
    }
}

impl State {
    fn make(&mut self, call: &Call, capacity: u64) {
        let position = self.positions.get_mut(&call.handle);
        match (call.reply.as_str(), position) {
            ("sent", _) => self.sent += 1,
            ("value", Some(position)) => *position += 1,
            ("lagged", Some(position)) => *position = self.sent - capacity,
            ("new", _) => {
                let receiver = call.returned.unwrap() as u32;
                self.positions.insert(receiver, self.sent);
            }
            ("dropped", _) => drop(self.positions.remove(&call.handle)),
            _ => {}
        }
    }
}

/// Reads an entry line: its stamp, actor and channel, the word of its call and a handle, and behind
/// `=` the reply.
fn call(line: &str, names: &Value, of_channel: &mut BTreeMap<u32, usize>) -> Call {
    let (called, replied) = line.split_once(" = ").unwrap();
    let words: Vec<&str> = called.split(' ').collect();
    let channel: u32 = words[2].parse().unwrap();
    let nth = of_channel.entry(channel).or_default();
    let location = names["calls"][words[2]][*nth].as_u64();
    *nth += 1;
    let (reply, returned) = replied.split_once(' ').unwrap_or((replied, ""));
    let method = match words[3] {
        "update" => "borrow_and_update".to_string(),
        "clone-receiver" => "clone".to_string(),
        word => word.replace('-', "_"),
    };
    Call {
        actor: words[1].parse().unwrap(),
        channel,
        method,
        handle: words[4].parse().unwrap(),
        reply: reply.to_string(),
        returned: returned.parse().ok(),
        line: location.map_or(0, |at| names["locations"][at as usize][1].as_u64().unwrap()),
    }
}
