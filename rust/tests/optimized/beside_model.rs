//! Random calls on a channel and on its model, which have to answer alike.

use crate::support::{Random, accepted};
use yovanelum::Recorder;

/// A channel with its model.
pub trait Beside {
    /// Makes a random call on both.
    fn step(&mut self, random: &mut Random);

    /// Creates and drops this many receivers, if there is a handle that creates them.
    fn create_and_drop(&self, count: usize);
}

/// How such pairs are opened.
pub struct Pairs<P> {
    /// The name of their journals.
    pub name: &'static str,
    /// What is added to the seeds.
    pub seeds: u64,
    pub open: fn(&mut Random) -> P,
}

impl<P: Beside> Pairs<P> {
    fn opened(&self, seed: u64, recorder: &Recorder) -> (P, Random) {
        let mut random = Random::new(self.seeds + seed);
        let _entered = recorder.enter();
        ((self.open)(&mut random), random)
    }

    pub fn answer_alike(&self) {
        for seed in 0..200 {
            let recorder = Recorder::new();
            if seed % 2 == 1 {
                recorder.quiet_questions();
            }
            let (mut pair, mut random) = self.opened(seed, &recorder);
            (0..300).for_each(|_| pair.step(&mut random));
            drop(pair);
            if seed < 20 {
                assert!(accepted(&recorder, &format!("{}-{seed}", self.name)) > 0);
            }
        }
    }

    /// The same without a recorder: the core takes dropped handles out.
    pub fn answer_alike_unrecorded(&self) {
        for seed in 0..100 {
            let (mut pair, mut random) = self.opened(seed + 700, &Recorder::off());
            for _ in 0..6 {
                (0..50).for_each(|_| pair.step(&mut random));
                pair.create_and_drop(600);
            }
        }
    }

    /// The same past the handles that a journal names.
    pub fn answer_alike_past_the_handles(&self) {
        for seed in 0..2 {
            let recorder = Recorder::new();
            let (mut pair, mut random) = self.opened(seed + 500, &recorder);
            for _ in 0..3 {
                (0..200).for_each(|_| pair.step(&mut random));
                pair.create_and_drop(65_400);
            }
            (0..300).for_each(|_| pair.step(&mut random));
            drop(pair);
            accepted(&recorder, &format!("{}-many-{seed}", self.name));
        }
    }
}
