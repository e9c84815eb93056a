//! A model of the steps that callers and waiters of a channel make between its locks, of which all
//! interleavings of two callers and two waiters are tried: what `wait.rs`, `wakers.rs` and
//! `channel/locked.rs` do, and no proof covers. Each step is what one of them does under one lock,
//! or with user code outside of it.

use std::collections::{BTreeMap, HashSet, VecDeque};

/// Takes what a state becomes by one step.
type AddsState<'a> = dyn FnMut(&dyn Fn(&mut ModelState)) + 'a;

/// What is done wrong, to see that the search finds it.
#[derive(Clone, Copy, Debug, PartialEq, Eq)]
enum Plant {
    /// Nothing.
    None,
    /// A poll that has to wait is listed once its waker is cloned, under another lock.
    ListedLate,
    /// Once its waker is cloned, a call that was taken off the list meanwhile isn't tried again.
    NotTriedAgain,
    /// Where the drop of an overwritten value panics, nobody is woken.
    LostInPanic,
    /// Where a waker panics, those behind it aren't woken.
    LostBehindPanic,
    /// A poll by another task leaves the waker of the first one.
    NotRenewed,
    /// A call that is polled again is listed a second time.
    ListedTwice,
    /// A dropped call stays listed.
    StaysListed,
    /// A call that was forgotten stays listed when its receiver is dropped.
    ForgottenStays,
    /// Those whom a call wakes stay listed.
    WokenStay,
}

/// Where a call that waits is.
#[derive(Clone, Copy, Debug, PartialEq, Eq, Hash, PartialOrd, Ord)]
enum At {
    /// It is to be polled by the task with this number: its first, or another one.
    Polled(u8),
    /// Its waker is being cloned, while no lock is held.
    Cloning(u8),
    /// It is pending.
    Pending(u8),
    /// It is done: it got the value, or the channel is closed.
    Done,
    /// It was dropped, or forgotten with its receiver dropped.
    Gone,
}

/// What a waiter does besides waiting, at any time while it is pending.
#[derive(Clone, Copy, Debug, PartialEq, Eq, Hash)]
enum Whim {
    /// Nothing.
    Waits,
    /// It is moved to another task once, and polled there.
    Moves,
    /// It is dropped.
    Drops,
    /// It is forgotten, and later its receiver is dropped.
    Forgets,
}

/// Where a caller is.
#[derive(Clone, Debug, PartialEq, Eq, Hash)]
enum ModelCaller {
    /// It is to send.
    Sends,
    /// It has sent, and drops the value that was overwritten, while no lock is held.
    Drops(Vec<Waker>),
    /// It wakes these, while no lock is held.
    Wakes(Vec<Waker>),
    Done,
}

/// What wakes a call: its number, and that of the task. `None` before it is cloned.
type Waker = Option<(usize, u8)>;

#[derive(Clone, Debug, PartialEq, Eq, Hash)]
struct ModelState {
    callers: [ModelCaller; 2],
    waiters: [At; 2],
    whims: [Whim; 2],
    // How many values each receiver has yet to receive, and that no caller is left to send one.
    unread: [u8; 2],
    // The list, by tickets.
    list: BTreeMap<u8, Waker>,
    tickets: [Option<u8>; 2],
    next: u8,
    // Which tasks of which waiter are woken, and how often a waker of each ticket was called.
    woken: [[bool; 2]; 2],
    // The first drop of an overwritten value, or the first call of a waker, panics.
    drop_panics: bool,
    waker_panics: bool,
}

impl ModelState {
    fn new(whims: [Whim; 2], (drop_panics, waker_panics): (bool, bool)) -> ModelState {
        ModelState {
            callers: [ModelCaller::Sends, ModelCaller::Sends],
            waiters: [At::Polled(0), At::Polled(0)],
            whims,
            unread: [0, 0],
            list: BTreeMap::new(),
            tickets: [None, None],
            next: 0,
            woken: [[false; 2]; 2],
            drop_panics,
            waker_panics,
        }
    }

    fn begin(&mut self, waiter: usize, waker: Waker) {
        self.list.insert(self.next, waker);
        self.tickets[waiter] = Some(self.next);
        self.next += 1;
    }

    fn is_listed(&self, waiter: usize) -> bool {
        self.tickets[waiter].is_some_and(|ticket| self.list.contains_key(&ticket))
    }

    fn leave(&mut self, waiter: usize) {
        if let Some(ticket) = self.tickets[waiter].take() {
            self.list.remove(&ticket);
        }
    }

    /// `PolledCall::poll`, up to its first unlock, or again with a cloned waker.
    fn poll(&mut self, waiter: usize, task: u8, cloned: bool, plant: Plant) {
        if self.unread[waiter] > 0 {
            self.unread[waiter] = 0;
            self.leave(waiter);
            self.waiters[waiter] = At::Done;
            return;
        }
        let own = self.tickets[waiter].and_then(|ticket| self.list.get(&ticket).copied());
        let same = own.flatten() == Some((waiter, task));
        if same || own.flatten().is_some() && plant == Plant::NotRenewed {
            self.waiters[waiter] = At::Pending(task);
            return;
        }
        let waker = cloned.then_some((waiter, task));
        if own.is_some() && plant != Plant::ListedTwice {
            if let (Some(ticket), true) = (self.tickets[waiter], cloned) {
                self.list.insert(ticket, waker);
            }
        } else if cloned || plant != Plant::ListedLate {
            self.begin(waiter, waker);
        }
        self.waiters[waiter] = if cloned {
            At::Pending(task)
        } else {
            At::Cloning(task)
        };
    }

    /// `PolledCall::set_waker`: its waker is cloned.
    fn set_waker(&mut self, waiter: usize, task: u8, plant: Plant) {
        if plant == Plant::ListedLate {
            self.begin(waiter, Some((waiter, task)));
            self.waiters[waiter] = At::Pending(task);
        } else if self.is_listed(waiter) {
            let ticket = self.tickets[waiter].unwrap();
            self.list.insert(ticket, Some((waiter, task)));
            self.waiters[waiter] = At::Pending(task);
        } else if plant == Plant::NotTriedAgain {
            self.waiters[waiter] = At::Pending(task);
        } else {
            self.poll(waiter, task, true, plant);
        }
    }

    /// A send, up to its unlock.
    fn send(&mut self, caller: usize, plant: Plant) {
        for (waiter, unread) in self.unread.iter_mut().enumerate() {
            if self.waiters[waiter] != At::Gone {
                *unread += 1;
            }
        }
        let wakers = self.list.values().copied().collect();
        if plant != Plant::WokenStay {
            self.list.clear();
        }
        self.callers[caller] = ModelCaller::Drops(wakers);
    }

    /// Calls the first of these wakers.
    fn wake(&mut self, caller: usize, mut wakers: Vec<Waker>, plant: Plant) {
        let mut goes_on = true;
        if let Some((waiter, task)) = wakers.remove(0) {
            self.woken[waiter][usize::from(task)] = true;
            if std::mem::take(&mut self.waker_panics) {
                goes_on = plant != Plant::LostBehindPanic;
            }
        }
        self.callers[caller] = if goes_on && !wakers.is_empty() {
            ModelCaller::Wakes(wakers)
        } else {
            ModelCaller::Done
        };
    }

    /// The states after one step of each that can make one.
    fn after_each(&self, plant: Plant) -> Vec<ModelState> {
        let callers = (0..2).filter_map(|it| self.after_caller(it, plant));
        let waiters = (0..2).flat_map(|it| self.after_waiter(it, plant));
        callers.chain(waiters).collect()
    }

    fn after_caller(&self, caller: usize, plant: Plant) -> Option<ModelState> {
        let mut after = self.clone();
        match self.callers[caller].clone() {
            ModelCaller::Sends => after.send(caller, plant),
            ModelCaller::Drops(wakers) => {
                let panics = std::mem::take(&mut after.drop_panics);
                let lost = panics && plant == Plant::LostInPanic || wakers.is_empty();
                after.callers[caller] = if lost {
                    ModelCaller::Done
                } else {
                    ModelCaller::Wakes(wakers)
                };
            }
            ModelCaller::Wakes(wakers) => after.wake(caller, wakers, plant),
            ModelCaller::Done => return None,
        }
        Some(after)
    }

    fn after_waiter(&self, waiter: usize, plant: Plant) -> Vec<ModelState> {
        let mut all = Vec::new();
        let mut add = |step: &dyn Fn(&mut ModelState)| {
            let mut after = self.clone();
            step(&mut after);
            all.push(after);
        };
        match self.waiters[waiter] {
            At::Polled(task) => add(&|it| it.poll(waiter, task, false, plant)),
            At::Cloning(task) => add(&|it| it.set_waker(waiter, task, plant)),
            At::Pending(task) => {
                if self.woken[waiter][usize::from(task)] {
                    add(&|it| {
                        it.woken[waiter][usize::from(task)] = false;
                        it.waiters[waiter] = At::Polled(task);
                    });
                }
                self.add_whim(waiter, &mut add, plant);
            }
            At::Done | At::Gone => {}
        }
        all
    }

    fn add_whim(&self, waiter: usize, add: &mut AddsState<'_>, plant: Plant) {
        let stays = match self.whims[waiter] {
            Whim::Waits => return,
            Whim::Moves => {
                return add(&|it| {
                    it.whims[waiter] = Whim::Waits;
                    it.waiters[waiter] = At::Polled(1);
                });
            }
            Whim::Drops => plant == Plant::StaysListed,
            Whim::Forgets => plant == Plant::ForgottenStays,
        };
        add(&|it| {
            if !stays {
                it.leave(waiter);
            }
            it.waiters[waiter] = At::Gone;
        });
    }

    /// What holds of each state.
    fn check(&self) -> Result<(), &'static str> {
        for (waiter, at) in self.waiters.iter().enumerate() {
            let own = self.list.iter().filter(|(ticket, waker)| {
                waker.is_some_and(|it| it.0 == waiter) || self.tickets[waiter] == Some(**ticket)
            });
            match (at, own.count()) {
                (At::Done | At::Gone, 1..) => return Err("a call that has ended is listed"),
                (_, 2..) => return Err("a call is listed twice"),
                _ => {}
            }
        }
        Ok(())
    }

    /// What holds where nobody can make a step: whoever has something to receive isn't pending, or
    /// its task is woken.
    fn check_end(&self) -> Result<(), &'static str> {
        for (waiter, at) in self.waiters.iter().enumerate() {
            if matches!(at, At::Pending(_)) && self.unread[waiter] > 0 {
                return Err("a call waits in vain");
            }
        }
        Ok(())
    }
}

/// Tries all interleavings, and returns how many states there are, or what is wrong in one.
fn explore(first: ModelState, plant: Plant) -> Result<usize, &'static str> {
    let mut seen = HashSet::from([first.clone()]);
    let mut left = VecDeque::from([first]);
    while let Some(state) = left.pop_front() {
        state.check()?;
        let after = state.after_each(plant);
        if after.is_empty() {
            state.check_end()?;
        }
        for next in after {
            if seen.insert(next.clone()) {
                left.push_back(next);
            }
        }
    }
    Ok(seen.len())
}

const WHIMS: [Whim; 4] = [Whim::Waits, Whim::Moves, Whim::Drops, Whim::Forgets];

/// Explores each pair of whims, with and without panics.
fn explore_all(plant: Plant) -> Result<usize, &'static str> {
    let mut count = 0;
    for whims in WHIMS.iter().flat_map(|it| WHIMS.map(|other| [*it, other])) {
        for panics in [(false, false), (true, false), (false, true)] {
            count += explore(ModelState::new(whims, panics), plant)?;
        }
    }
    Ok(count)
}

#[test]
fn nobody_waits_in_vain_in_any_interleaving_of_two_callers_and_two_waiters() {
    let count = explore_all(Plant::None).unwrap();
    assert!(count > 10_000, "{count}");
}

#[test]
fn each_plant_is_found() {
    for (plant, found) in [
        (Plant::ListedLate, "a call waits in vain"),
        (Plant::NotTriedAgain, "a call waits in vain"),
        (Plant::LostInPanic, "a call waits in vain"),
        (Plant::LostBehindPanic, "a call waits in vain"),
        (Plant::NotRenewed, "a call waits in vain"),
        (Plant::ListedTwice, "a call is listed twice"),
        (Plant::StaysListed, "a call that has ended is listed"),
        (Plant::ForgottenStays, "a call that has ended is listed"),
        (Plant::WokenStay, "a call waits in vain"),
    ] {
        assert_eq!(explore_all(plant), Err(found), "{plant:?}");
    }
}
