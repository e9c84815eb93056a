//! The futures that wait for a turn, by their lanes and in the order in which they came.

use super::state::Waiter;
use crate::channels::turns::Ticket;
use yovanelum_record::listed::PushAll;
use yovanelum_record::numbered::NumberMap;

/// The waiters of a replay. A lane is here while it has some.
#[derive(Default)]
pub(super) struct Waiters(NumberMap<u32, NumberMap<u64, Waiter>>);

impl Waiters {
    pub(super) fn insert(&mut self, (lane, number): Ticket, waiter: Waiter) {
        self.0.get_or_default(lane).insert(number, waiter);
    }

    pub(super) fn remove(&mut self, (lane, number): &Ticket) -> Option<Waiter> {
        let of_lane = self.0.get_mut(lane)?;
        let waiter = of_lane.remove(number);
        if of_lane.is_empty() {
            self.0.remove(lane);
        }
        waiter
    }

    /// Returns the ticket of the one that has waited longest in a lane.
    pub(super) fn first_of(&self, lane: u32) -> Option<Ticket> {
        let number = self.0.get(&lane)?.keys().next()?;
        Some((lane, *number))
    }

    pub(super) fn is_empty(&self) -> bool {
        self.0.is_empty()
    }

    pub(super) fn values(&self) -> Vec<&Waiter> {
        let mut all = vec![];
        for of_lane in self.0.values() {
            all.push_all(of_lane.values());
        }
        all
    }

    pub(super) fn into_values(self) -> Vec<Waiter> {
        let mut all = vec![];
        for of_lane in self.0.into_values() {
            all.push_all(of_lane.into_values());
        }
        all
    }
}
