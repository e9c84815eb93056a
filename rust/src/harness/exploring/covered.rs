//! How much of what could come in another order did, as a number: of the pairs of steps that came
//! in one order, how many came in the other one too.
//!
//! A pair is of two steps on one channel, by different actors. In each run a step is known by its
//! actor, its channel, its call and where that is in the source, and by how many of these came
//! before it.

use crate::schedule::explore::{Schedule, Step, What};
use std::hash::{DefaultHasher, Hash, Hasher};
use yovanelum_record::by_text::TextMap;
use yovanelum_record::listed::IntoList;
use yovanelum_record::numbered::NumberMap;
use yovanelum_record::visible;

/// How many different steps are kept of all runs. What is known of their pairs takes 16 MiB.
const MOST_STEPS: usize = 8192;

/// The pairs of steps of all runs.
#[derive(Default)]
pub(super) struct CoveredPairs {
    /// The lists of steps, by the hash of what is the same in all steps of a list.
    by_hash: NumberMap<u64, usize>,
    lists: Vec<AlikeSteps>,
    channels_by_hash: NumberMap<u64, usize>,
    channels: Vec<ChannelSteps>,
    kept: usize,
    /// Whether there were more steps than are kept.
    pub(super) is_cut: bool,
}

/// Steps which their number tells apart alone.
struct AlikeSteps {
    channel: usize,
    /// Their numbers on the channel, in the order in which they come in each run.
    steps: Vec<usize>,
    /// How many have come in this run.
    came: usize,
}

/// The steps on one channel.
#[derive(Default)]
struct ChannelSteps {
    steps: Vec<KnownStep>,
    /// What has come in this walk over a run.
    came: StepSet,
}

/// A step, and what is known of its pairs.
struct KnownStep {
    /// The hash of its actor.
    actor: u64,
    /// What came before it in any run, and what came after it.
    before: StepSet,
    after: StepSet,
}

/// A set of the steps on one channel, with a bit for each.
#[derive(Default)]
struct StepSet(Vec<u64>);

/// How many pairs there are.
#[derive(Clone, Copy, Debug, Default, PartialEq, Eq)]
pub(super) struct PairCounts {
    pub(super) seen: u64,
    pub(super) in_both_orders: u64,
}

impl CoveredPairs {
    /// Adds the pairs of a run. No pair is looked at alone: to a step is added at once what came
    /// before it and after it, 64 steps in a word.
    pub(super) fn add(&mut self, schedule: &Schedule) {
        let names = hashes_of_channels(schedule);
        self.lists.iter_mut().for_each(|list| list.came = 0);
        let steps = schedule.steps.iter();
        let known = steps.filter_map(|step| self.known(step, &names));
        let known: Vec<(usize, usize)> = known.listed();
        self.walk(known.iter(), |step| &mut step.before);
        self.walk(known.iter().rev(), |step| &mut step.after);
    }

    /// Returns the number of a step's channel, and that of the step there. One is left out if it is
    /// no call, or if there are too many.
    fn known(&mut self, step: &Step, names: &NumberMap<u32, u64>) -> Option<(usize, usize)> {
        let What::Call { word, channel, .. } = &step.what else {
            return None;
        };
        let name = names.get(channel).copied();
        let channel = name.unwrap_or(u64::from(*channel));
        let same = hash_of(&(channel, &step.who, word, &step.at));
        let list = self.by_hash.get(&same).copied();
        let list = list.or_else(|| self.add_list(same, channel))?;
        let list = &mut self.lists[list];
        let steps = &mut self.channels[list.channel].steps;
        if list.came == list.steps.len() {
            if self.kept == MOST_STEPS {
                self.is_cut = true;
                return None;
            }
            self.kept += 1;
            list.steps.push(steps.len());
            steps.push(KnownStep::of(&step.who));
        }
        list.came += 1;
        Some((list.channel, list.steps[list.came - 1]))
    }

    /// Adds a list without steps, and returns its number, unless there are too many steps.
    fn add_list(&mut self, same: u64, channel: u64) -> Option<usize> {
        if self.kept == MOST_STEPS {
            self.is_cut = true;
            return None;
        }
        let next = self.channels.len();
        let channel = *self.channels_by_hash.get_or_insert_with(channel, || next);
        if channel == next {
            self.channels.push(ChannelSteps::default());
        }
        self.lists.push(AlikeSteps {
            channel,
            steps: Vec::new(),
            came: 0,
        });
        self.by_hash.insert(same, self.lists.len() - 1);
        Some(self.lists.len() - 1)
    }

    /// Adds to one side of each step what has come so far on its channel.
    fn walk<'a>(
        &mut self,
        steps: impl Iterator<Item = &'a (usize, usize)>,
        side: fn(&mut KnownStep) -> &mut StepSet,
    ) {
        for channel in &mut self.channels {
            channel.came.0.clear();
        }
        for (channel, step) in steps {
            let channel = &mut self.channels[*channel];
            side(&mut channel.steps[*step]).extend(&channel.came);
            channel.came.insert(*step);
        }
    }

    pub(super) fn counts(&self) -> PairCounts {
        let mut all = PairCounts::default();
        for channel in &self.channels {
            let counts = channel.counts();
            all.seen += counts.seen;
            all.in_both_orders += counts.in_both_orders;
        }
        all
    }

    /// Says how many pairs came in both orders.
    pub(super) fn in_words(&self) -> String {
        let counts = self.counts();
        let pairs = visible::counted(counts.seen, "pair");
        let said = match counts.seen {
            0 => "covered: no pairs of steps, since no channel was used by two actors".to_string(),
            _ => format!(
                "covered: {} of {pairs} of steps came in both orders",
                counts.in_both_orders
            ),
        };
        if self.is_cut {
            format!("{said}, of the first {MOST_STEPS} steps alone")
        } else {
            said
        }
    }
}

impl ChannelSteps {
    /// Counts the pairs of steps of different actors. Each has two steps that know of it.
    fn counts(&self) -> PairCounts {
        let mut of_actors: NumberMap<u64, StepSet> = NumberMap::new();
        for (number, step) in self.steps.iter().enumerate() {
            of_actors.get_or_default(step.actor).insert(number);
        }
        let count = |how: fn(u64, u64) -> u64| {
            let steps = self.steps.iter();
            let counts =
                steps.filter_map(|step| Some(step.count(of_actors.get(&step.actor)?, how)));
            counts.sum::<u64>() / 2
        };
        PairCounts {
            seen: count(|before, after| before | after),
            in_both_orders: count(|before, after| before & after),
        }
    }
}

impl KnownStep {
    fn of(actor: &str) -> KnownStep {
        KnownStep {
            actor: hash_of(&actor),
            before: StepSet::default(),
            after: StepSet::default(),
        }
    }

    /// Counts the steps that came before it and after it in this way, without its own actor's.
    fn count(&self, own: &StepSet, how: fn(u64, u64) -> u64) -> u64 {
        let words = self.before.0.len().max(self.after.0.len());
        let others =
            |index| how(self.before.word(index), self.after.word(index)) & !own.word(index);
        (0..words)
            .map(|index| u64::from(others(index).count_ones()))
            .sum()
    }
}

impl StepSet {
    fn word(&self, index: usize) -> u64 {
        self.0.get(index).copied().unwrap_or(0)
    }

    fn insert(&mut self, step: usize) {
        let index = step / 64;
        if self.0.len() <= index {
            self.0.resize(index + 1, 0);
        }
        self.0[index] |= 1 << (step % 64);
    }

    /// Adds those of another set. No more memory is reserved than they take.
    fn extend(&mut self, other: &StepSet) {
        let more = other.0.len().saturating_sub(self.0.len());
        self.0.reserve_exact(more);
        self.0.resize(self.0.len() + more, 0);
        for (own, others) in self.0.iter_mut().zip(&other.0) {
            *own |= others;
        }
    }
}

/// Returns a hash for each channel with a name. The number of a channel is its place in the order
/// of creation, which differs between runs where several tasks create some. Of those with one name
/// it has the same place more often.
fn hashes_of_channels(schedule: &Schedule) -> NumberMap<u32, u64> {
    let mut counts: TextMap<usize> = TextMap::new();
    let channels = schedule.channels.iter();
    let hashes = channels.map(|(number, name)| {
        let count = counts.get_or_default(name);
        *count += 1;
        (*number, hash_of(&(name, *count)))
    });
    hashes.collect()
}

fn hash_of(what: &impl Hash) -> u64 {
    let mut hasher = DefaultHasher::new();
    what.hash(&mut hasher);
    hasher.finish()
}

#[cfg(test)]
mod tests {
    use super::*;
    use crate::schedule::explore::Turn;

    /// A run, whose steps are written as `a:send:0`: the actor, the call, and the channel.
    fn run(steps: &str) -> Schedule {
        let step = |text: &str| {
            let mut parts = text.split(':');
            let mut next = || parts.next().unwrap().to_string();
            let (who, word, channel) = (next(), next(), next());
            Step {
                count: 1,
                what: What::Call {
                    word,
                    channel: channel.parse().unwrap(),
                    handle: 0,
                },
                at: Some(("tests/shop.rs".to_string(), 7)),
                ..Step::poll_of(&who, Turn::Free)
            }
        };
        let mut schedule = Schedule::new(String::new());
        schedule.steps = steps.split_whitespace().map(step).collect();
        schedule
    }

    /// Returns how many pairs runs have, and how many of them come in both orders.
    fn covered(runs: &[Schedule]) -> (u64, u64) {
        let mut covered = CoveredPairs::default();
        runs.iter().for_each(|run| covered.add(run));
        assert!(!covered.is_cut);
        numbers(&covered)
    }

    fn numbers(covered: &CoveredPairs) -> (u64, u64) {
        let counts = covered.counts();
        (counts.seen, counts.in_both_orders)
    }

    fn covered_by(runs: &[&str]) -> (u64, u64) {
        let runs: Vec<_> = runs.iter().map(|steps| run(steps)).collect();
        covered(&runs)
    }

    #[test]
    fn a_pair_is_of_two_actors_on_one_channel() {
        assert_eq!(covered_by(&["a:send:0 b:send:0"]), (1, 0));
        assert_eq!(covered_by(&["a:send:0 a:drop:0"]), (0, 0));
        assert_eq!(covered_by(&["a:send:0 b:send:1"]), (0, 0));
        // Both steps of `a` with the one of `b`.
        assert_eq!(covered_by(&["a:send:0 b:send:0 a:drop:0"]), (2, 0));
        assert_eq!(covered_by(&[]), (0, 0));
    }

    #[test]
    fn a_pair_comes_in_both_orders_once() {
        let (one, other) = ("a:send:0 b:send:0", "b:send:0 a:send:0");
        assert_eq!(covered_by(&[one, one]), (1, 0));
        assert_eq!(covered_by(&[one, other]), (1, 1));
        assert_eq!(covered_by(&[one, other, one, other]), (1, 1));
    }

    /// The second send of `a` is another step than the first one, and so is a drop: the pairs of
    /// `b` are those with the first and with the second one, of which one is exchanged.
    #[test]
    fn a_step_is_known_by_its_number_among_those_like_it() {
        let runs = ["a:send:0 a:send:0 b:send:0", "a:send:0 b:send:0 a:send:0"];
        assert_eq!(covered_by(&runs), (2, 1));
        // What `a` does in one run alone moves no number of its sends.
        let runs = ["a:send:0 b:send:0", "a:borrow:0 b:send:0 a:send:0"];
        assert_eq!(covered_by(&runs), (2, 1));
    }

    #[test]
    fn a_step_is_known_by_its_place_in_the_source_too() {
        let (one, mut other) = (run("a:send:0 b:send:0"), run("b:send:0 a:send:0"));
        other.steps[1].at = Some(("tests/shop.rs".to_string(), 8));
        assert_eq!(covered(&[one, other]), (2, 0));
    }

    #[test]
    fn polls_and_time_are_in_no_pair() {
        let mut run = run("a:send:0 b:send:0 c:send:0");
        run.steps[0].what = What::Poll;
        let ready = "`b`".to_string();
        run.steps[2].what = What::Time { ready };
        assert_eq!(covered(&[run]), (0, 0));
    }

    /// `orders` is created first in one run, and second in the other one. Two channels are named
    /// `reply`, which are told apart by their order.
    #[test]
    fn a_channel_is_known_by_its_name_where_it_has_one() {
        let named = |steps: &str, names: &[(u32, &str)]| {
            let mut run = run(steps);
            run.channels = names
                .iter()
                .map(|(at, name)| (*at, name.to_string()))
                .collect();
            run
        };
        let one = named("a:send:0 b:send:0", &[(0, "orders"), (1, "prices")]);
        let other = named("b:send:1 a:send:1", &[(0, "prices"), (1, "orders")]);
        assert_eq!(covered(&[one, other]), (1, 1));
        let twice = [(0, "reply"), (1, "reply")];
        let one = named("a:send:0 b:send:0", &twice);
        let other = named("b:send:1 a:send:1", &twice);
        assert_eq!(covered(&[one, other]), (2, 0));
    }

    /// As many pairs as a table of all steps has: 100 * 100 between `a` and `b`. In the second run
    /// all are exchanged.
    #[test]
    fn many_steps_are_all_compared() {
        let (a, b) = ("a:send:0 ".repeat(100), "b:send:0 ".repeat(100));
        let runs = [format!("{a}{b}"), format!("{b}{a}")];
        assert_eq!(covered_by(&[&runs[0]]), (10_000, 0));
        assert_eq!(covered_by(&[&runs[0], &runs[1]]), (10_000, 10_000));
    }

    /// One of `b` and the others of `a` are kept. What comes later is in no pair.
    #[test]
    fn the_first_steps_are_kept_where_there_are_too_many() {
        let many = "a:send:0 ".repeat(MOST_STEPS);
        let mut covered = CoveredPairs::default();
        covered.add(&run(&format!("b:send:0 {many} b:send:0")));
        let kept = MOST_STEPS as u64 - 1;
        assert_eq!(numbers(&covered), (kept, 0));
        assert!(covered.is_cut);
        covered.add(&run("a:send:0 b:send:0"));
        assert_eq!(numbers(&covered), (kept, 1));
        let said =
            "covered: 1 of 8191 pairs of steps came in both orders, of the first 8192 steps alone";
        assert_eq!(covered.in_words(), said);
    }

    #[test]
    fn it_says_how_many_there_were() {
        let mut covered = CoveredPairs::default();
        let nobody = "covered: no pairs of steps, since no channel was used by two actors";
        assert_eq!(covered.in_words(), nobody);
        covered.add(&run("a:send:0 b:send:0"));
        let one = "covered: 0 of 1 pair of steps came in both orders";
        assert_eq!(covered.in_words(), one);
        covered.add(&run("b:send:0 a:send:0 b:drop:0"));
        let two = "covered: 1 of 2 pairs of steps came in both orders";
        assert_eq!(covered.in_words(), two);
    }
}
