//! Who is let go next, by the strategy of an order.

use super::asked::FOR;
use super::fairness::PassedOver;
use super::guide::Guide;
use super::order::{Order, OrderKind};
use super::random::{Random, hashed};
use super::schedule::{Schedule, Step, What};
use std::io;
use std::sync::Arc;
use std::time::Duration;
use yovanelum_record::by_text::TextMap;
use yovanelum_record::listed::IntoList;
use yovanelum_record::numbered::NumberMap;

/// One who stands, and may be let go.
pub(super) struct Candidate {
    pub(super) who: Arc<str>,
    pub(super) what: What,
    /// The number of its stand, which no other one has.
    pub(super) number: u64,
    pub(super) passed_over: PassedOver,
}

impl Candidate {
    /// The number of time.
    pub(super) const TIME: u64 = u64::MAX;
}

/// Chooses among those who stand.
pub(super) enum Chooser {
    Steps {
        steps: Vec<(u32, u32)>,
        at: u32,
    },
    Random(Random),
    Pct(Pct),
    Pos {
        random: Random,
        priorities: NumberMap<u64, u64>,
    },
    Guided(Guide),
    Follow(Follow),
}

impl Chooser {
    /// The chooser of an order.
    ///
    /// # Errors
    ///
    /// Returns an error if it follows a file that can't be read, or is to be guided and isn't told
    /// where.
    pub(super) fn new(order: &Order) -> io::Result<Chooser> {
        Ok(match &order.kind {
            OrderKind::Steps(steps) => Chooser::Steps {
                steps: steps.clone(),
                at: 0,
            },
            OrderKind::Random(seed) => Chooser::Random(Random::new(*seed)),
            OrderKind::Pct { depth, seed, steps } => Chooser::Pct(Pct::new(*depth, *seed, *steps)),
            OrderKind::Pos(seed) => Chooser::Pos {
                random: Random::new(*seed),
                priorities: NumberMap::new(),
            },
            OrderKind::Guided { seed, steps } => {
                let guide = Guide::new(*seed, *steps);
                Chooser::Guided(guide.ok_or_else(|| io::Error::other(format!("{FOR} isn't set")))?)
            }
            OrderKind::File(path) => {
                let schedule = Schedule::of_file(path)?;
                let mut follow = Follow::new(schedule.steps);
                follow.clock = schedule.clock;
                Chooser::Follow(follow)
            }
        })
    }

    /// Returns the index of the one who is let go. The first candidate is the one who goes on
    /// without a switch.
    pub(super) fn choose(&mut self, candidates: &[Candidate]) -> usize {
        match self {
            Chooser::Steps { steps, at } => {
                let number = *at;
                *at += 1;
                let step = steps.iter().find(|(step, _)| *step == number);
                let other = step.map_or(0, |(_, other)| *other as usize);
                other.min(candidates.len() - 1)
            }
            Chooser::Random(random) => random.below(candidates.len()),
            Chooser::Pct(pct) => pct.choose(candidates),
            Chooser::Pos { random, priorities } => by_sampling(random, priorities, candidates),
            Chooser::Guided(guide) => guide.choose(candidates),
            Chooser::Follow(follow) => follow.choose(candidates),
        }
    }

    /// Returns who makes the next step of the schedule that is followed, and the time of the run's
    /// clock then, if the schedule says it.
    pub(super) fn time(&self) -> Option<(&Arc<str>, Duration)> {
        match self {
            Chooser::Follow(follow) => follow.time(),
            _ => None,
        }
    }

    /// Returns the first step that isn't that of the schedule which is followed.
    pub(super) fn diverged(&self) -> Option<u32> {
        match self {
            Chooser::Follow(follow) => follow.diverged,
            _ => None,
        }
    }
}

/// Chooses the one whose call has the highest priority. Those of its channel, whose order with it
/// matters, get new ones.
fn by_sampling(
    random: &mut Random,
    priorities: &mut NumberMap<u64, u64>,
    candidates: &[Candidate],
) -> usize {
    let mut of = |candidate: &Candidate| {
        let fresh = random.next();
        *priorities.get_or_insert_with(candidate.number, || fresh)
    };
    let all: Vec<u64> = candidates.iter().map(&mut of).listed();
    let best = (0..all.len()).max_by_key(|index| all[*index]).unwrap_or(0);
    let channel = |what: &What| match what {
        What::Call { channel, .. } => Some(*channel),
        What::Poll | What::Time { .. } | What::Point { .. } => None,
    };
    let of_best = channel(&candidates[best].what);
    for candidate in candidates {
        let of = channel(&candidate.what);
        if of.is_none() || of_best.is_none() || of == of_best {
            priorities.remove(&candidate.number);
        }
    }
    best
}

/// Chooses by priorities that change at few steps.
pub(super) struct Pct {
    depth: u32,
    seed: u64,
    /// At which choices the one who would go gets this low priority.
    changes: Vec<(u32, u64)>,
    lowered: TextMap<u64>,
    choices: u32,
}

impl Pct {
    fn new(depth: u32, seed: u64, steps: u32) -> Pct {
        let mut random = Random::new(seed);
        let mut at = || 1 + random.below(steps.max(1) as usize) as u32;
        Pct {
            depth,
            seed,
            changes: (1..u64::from(depth)).map(|low| (at(), low)).listed(),
            lowered: TextMap::new(),
            choices: 0,
        }
    }

    fn choose(&mut self, candidates: &[Candidate]) -> usize {
        if candidates.len() == 1 {
            return 0;
        }
        self.choices += 1;
        let change = self.changes.iter().find(|(at, _)| *at == self.choices);
        if let Some((_, low)) = change.copied() {
            let first = self.best(candidates);
            self.lowered.insert(&candidates[first].who, low);
        }
        self.best(candidates)
    }

    fn best(&self, candidates: &[Candidate]) -> usize {
        let priority = |candidate: &Candidate| match self.lowered.get(&candidate.who) {
            Some(low) => *low,
            None => u64::from(self.depth) + (hashed(self.seed, &candidate.who) >> 8),
        };
        let best = (0..candidates.len()).max_by_key(|index| priority(&candidates[*index]));
        best.unwrap_or(0)
    }
}

/// Lets those go that a schedule has, as far as they stand.
pub(super) struct Follow {
    steps: Vec<Step>,
    is_made: Vec<bool>,
    /// All before it are made.
    front: usize,
    count: u32,
    diverged: Option<u32>,
    /// The time of the run's clock at those steps where it has gone on.
    clock: Vec<(u32, Duration)>,
}

/// How far ahead of the first step that is yet to be made others are looked for.
const AHEAD: usize = 256;

impl Follow {
    pub(super) fn new(steps: Vec<Step>) -> Follow {
        Follow {
            is_made: vec![false; steps.len()],
            steps,
            front: 0,
            count: 0,
            diverged: None,
            clock: Vec::new(),
        }
    }

    fn time(&self) -> Option<(&Arc<str>, Duration)> {
        let who = &self.steps.get(self.front)?.who;
        let behind = self
            .clock
            .partition_point(|(step, _)| *step as usize <= self.front);
        let (_, time) = self.clock.get(behind.checked_sub(1)?)?;
        Some((who, *time))
    }

    fn choose(&mut self, candidates: &[Candidate]) -> usize {
        let found = self.first_of(candidates);
        let is_exact = found.is_some_and(|(step, candidate)| {
            step == self.front && self.steps[step].what == candidates[candidate].what
        });
        if !is_exact && self.diverged.is_none() {
            self.diverged = Some(self.count);
            super::run::note_left(self.count);
        }
        self.count += 1;
        let Some((step, candidate)) = found else {
            return 0;
        };
        self.is_made[step] = true;
        while self.is_made.get(self.front) == Some(&true) {
            self.front += 1;
        }
        candidate
    }

    /// Returns the first step of one who stands, and who that is.
    fn first_of(&self, candidates: &[Candidate]) -> Option<(usize, usize)> {
        let end = self.steps.len().min(self.front + AHEAD);
        let mut steps = (self.front..end).filter(|step| !self.is_made[*step]);
        steps.find_map(|step| {
            let who = &self.steps[step].who;
            let found = candidates
                .iter()
                .position(|candidate| candidate.who == *who)?;
            Some((step, found))
        })
    }
}

#[cfg(test)]
mod tests {
    use super::super::schedule::Turn;
    use super::*;

    fn standing(who: &[&str]) -> Vec<Candidate> {
        let candidate = |(number, who): (u64, &&str)| Candidate {
            who: (*who).into(),
            what: What::Poll,
            number,
            passed_over: PassedOver::default(),
        };
        (0..).zip(who).map(candidate).collect()
    }

    fn chooser(order: &str) -> Chooser {
        Chooser::new(&Order::read(order).unwrap()).unwrap()
    }

    fn choices(chooser: &mut Chooser, count: usize) -> Vec<usize> {
        let all = standing(&["a", "b", "c"]);
        (0..count).map(|_| chooser.choose(&all)).collect()
    }

    #[test]
    fn an_order_of_steps_differs_there_alone() {
        assert_eq!(choices(&mut chooser("s"), 4), [0, 0, 0, 0]);
        assert_eq!(choices(&mut chooser("s1.2-3.9"), 5), [0, 2, 0, 2, 0]);
    }

    #[test]
    fn a_seed_gives_the_same_choices_and_another_one_others() {
        for order in ["r", "o", "p3."] {
            let of = |seed: &str| choices(&mut chooser(&format!("{order}{seed}")), 40);
            let end = if order == "p3." { ".30" } else { "" };
            assert_eq!(of(&format!("7{end}")), of(&format!("7{end}")));
            let others =
                (0..9).filter(|seed| of(&format!("{seed}{end}")) != of(&format!("7{end}")));
            assert!(others.count() > 4, "{order}");
        }
    }

    #[test]
    fn priorities_change_once_at_most_where_the_depth_is_2() {
        let changes = |seed: u32| {
            let all = choices(&mut chooser(&format!("p2.{seed}.10")), 40);
            let changes = all.windows(2).filter(|pair| pair[0] != pair[1]);
            changes.count()
        };
        let all: Vec<usize> = (0..40).map(changes).collect();
        assert!(all.iter().all(|count| *count <= 1), "{all:?}");
        // At the first choice a change isn't seen, and that is one of ten.
        assert!(all.iter().sum::<usize>() > 25, "{all:?}");
    }

    #[test]
    fn a_schedule_says_the_time_of_its_next_step() {
        let step = |who: &&str| Step::poll_of(who, Turn::Free);
        let mut follow = Follow::new(["a", "b", "a"].iter().map(step).collect());
        let time = Duration::from_millis(40);
        follow.clock = vec![(1, time)];
        assert_eq!(follow.time(), None);
        follow.choose(&standing(&["a", "b"]));
        assert_eq!(follow.time(), Some((&"b".into(), time)));
        follow.choose(&standing(&["a", "b"]));
        assert_eq!(follow.time(), Some((&"a".into(), time)));
        follow.choose(&standing(&["a", "b"]));
        assert_eq!(follow.time(), None);
    }

    #[test]
    fn a_schedule_is_followed_as_far_as_its_callers_come() {
        let steps = |who: &[&str]| {
            let step = |who: &&str| Step::poll_of(who, Turn::Free);
            who.iter().map(step).collect()
        };
        let mut follow = Follow::new(steps(&["b", "a", "b"]));
        assert_eq!(follow.choose(&standing(&["a", "b"])), 1);
        assert_eq!(follow.diverged, None);
        // `a` doesn't stand yet, so its step is made later.
        assert_eq!(follow.choose(&standing(&["b", "c"])), 0);
        assert_eq!(follow.diverged, Some(1));
        assert_eq!(follow.choose(&standing(&["b", "c", "a"])), 2);
        assert_eq!(follow.choose(&standing(&["b", "c"])), 0);
    }
}
