//! What is counted of a watch while its entries are passed.
// From crates/rw_findings/src/totals/watch.rt, with its contracts as comments. //+
use crate::shim::{Vec, vec}; //+

//~ ghost use Rattle.std.specs.Prelude.{◌≡◌, ◌<◌, ◌+◌, ◌-◌, IfOk, OnOk, Option, length, option_map};
//~ ghost use Rattle.rw_findings.specs.WatchTallies.{after_change, after_end, after_look, after_mark, after_update, counts_from, HasRoom};
//~ ghost use Rattle.rw_findings.specs.WatchTallies.{HasRoomFor, made_watcher, new_watcher, opened_watch, watcher_in, with_call, with_watcher};

use super::sight::Sight;
use super::total::WatchCounts;
use crate::source::rw_law::NoMemory;
use crate::source::rw_watch::{WCall, WReply};
use crate::shim::alloc::Global;
//~ use std::marker::Model;

/// What is counted of a receiver.
#[derive(Clone, Copy)]
pub(super) struct Watcher {
    alive: bool,
    changes: u64,
    marks: Sight,
    looks: Sight,
}

/// The receivers of a watch.
//~ #[derive(Drop)]
pub(super) struct WatchTally {
    version: u64,
    // By the handle's number. What never was a receiver has None.
    watchers: Vec<Option<Watcher>>,
}

//~ impl Model for WatchTally {
//~     ghost use Rattle.rw_findings.specs.WatchTallies.{WatchTally as Seen};
//~
//~     ghost Value = { Seen };
//~
//~     ghost view = { λ a. record { version = a.version; watchers = a.watchers.items } };
//~ }

/// Returns a receiver that is made at this version.
fn new_watcher(version: u64) -> Watcher
//~     ensures { result ≡ new_watcher version }
{
    Watcher {
        alive: true,
        changes: 0,
        marks: Sight::new(version),
        looks: Sight::new(version),
    }
}

impl WatchTally {
    /// Returns the tally of a watch at its opening, with sender 0 and receiver 1.
    pub(super) fn open(alloc: Global) -> Result<WatchTally, NoMemory>
//~         ensures { IfOk result (λ tally. tally ≡ opened_watch) }
    {
        Ok(WatchTally {
            version: 0,
            watchers: vec![in alloc; None, Some(new_watcher(0))]?,
        })
    }

    /// Returns how many handles were made.
    pub(super) fn made(&self) -> usize
//~         ensures { result ≡ length self.now.watchers }
    {
        self.watchers.len()
    }

    /// Returns a receiver, whether it was dropped or not.
    fn watcher(&self, handle: u32) -> Option<Watcher>
//~         ensures { result ≡ watcher_in self.now handle }
    {
        *self.watchers.get(handle as usize)?
    }

    /// Returns a receiver after it has looked at the value.
    fn after_look(&self, watcher: Watcher) -> Watcher
//~         requires { HasRoomFor self.now watcher }
//~         ensures { result ≡ after_look self.now.version watcher }
    {
        let mut after = watcher;
        after.looks = watcher.looks.after(self.version);
        after
    }

    /// Returns a receiver after it has marked the value as seen.
    fn after_mark(&self, watcher: Watcher) -> Watcher
//~         requires { HasRoomFor self.now watcher }
//~         ensures { result ≡ after_mark self.now.version watcher }
    {
        let mut after = watcher;
        after.marks = watcher.marks.after(self.version);
        after
    }

    /// Returns a receiver after it has done both.
    fn after_update(&self, watcher: Watcher) -> Watcher
//~         requires { HasRoomFor self.now watcher }
//~         ensures { result ≡ after_update self.now.version watcher }
    {
        let mut after = watcher;
        after.marks = watcher.marks.after(self.version);
        after.looks = watcher.looks.after(self.version);
        after
    }

    /// Returns a receiver after `changed` told it of a change, which marks the value as seen.
    fn after_change(&self, watcher: Watcher) -> Watcher
//~         requires { HasRoomFor self.now watcher }
//~         ensures { result ≡ after_change self.now.version watcher }
    {
        let mut after = watcher;
        after.changes += 1;
        after.marks = watcher.marks.after(self.version);
        after
    }

    /// Returns a receiver after it was dropped.
    fn after_end(&self, watcher: Watcher) -> Watcher
//~         requires { HasRoomFor self.now watcher }
//~         ensures { result ≡ after_end self.now.version watcher }
    {
        let mut after = watcher;
        after.alive = false;
        after.marks = watcher.marks.ended(watcher.alive, self.version);
        after.looks = watcher.looks.ended(watcher.alive, self.version);
        after
    }

    /// Returns the receiver that a call makes, if it makes one.
    fn made_watcher<V: Copy>(&self, call: &WCall<V>) -> Option<Watcher>
//~         ensures { result ≡ made_watcher self.now call.now }
    {
        match *call {
            WCall::Subscribe(_) | WCall::CloneReceiver(_) => Some(new_watcher(self.version)),
            _ => None,
        }
    }

    /// Puts a receiver under a handle's number.
    fn put(&mut self, handle: u32, watcher: Option<Watcher>)
//~         ensures { self.new ≡ with_watcher self.old handle watcher }
    {
        if (handle as usize) < self.watchers.len() {
            self.watchers[handle as usize] = watcher;
        }
    }

    /// Counts a look at the value by a receiver.
    fn look(&mut self, handle: u32)
//~         requires { HasRoom self.old }
//~         ensures { self.new ≡ with_watcher self.old handle (option_map (after_look self.old.version) (watcher_in self.old handle)) }
    {
        let after = match self.watcher(handle) {
            Some(watcher) => Some(self.after_look(watcher)),
            None => None,
        };
        self.put(handle, after);
    }

    /// Does the same for one that marks the value as seen.
    fn mark(&mut self, handle: u32)
//~         requires { HasRoom self.old }
//~         ensures { self.new ≡ with_watcher self.old handle (option_map (after_mark self.old.version) (watcher_in self.old handle)) }
    {
        let after = match self.watcher(handle) {
            Some(watcher) => Some(self.after_mark(watcher)),
            None => None,
        };
        self.put(handle, after);
    }

    /// Does the same for one that does both.
    fn update(&mut self, handle: u32)
//~         requires { HasRoom self.old }
//~         ensures { self.new ≡ with_watcher self.old handle (option_map (after_update self.old.version) (watcher_in self.old handle)) }
    {
        let after = match self.watcher(handle) {
            Some(watcher) => Some(self.after_update(watcher)),
            None => None,
        };
        self.put(handle, after);
    }

    /// Does the same for one that `changed` told of a change.
    fn change(&mut self, handle: u32)
//~         requires { HasRoom self.old }
//~         ensures { self.new ≡ with_watcher self.old handle (option_map (after_change self.old.version) (watcher_in self.old handle)) }
    {
        let after = match self.watcher(handle) {
            Some(watcher) => Some(self.after_change(watcher)),
            None => None,
        };
        self.put(handle, after);
    }

    /// Ends a receiver that was dropped.
    fn end(&mut self, handle: u32)
//~         requires { HasRoom self.old }
//~         ensures { self.new ≡ with_watcher self.old handle (option_map (after_end self.old.version) (watcher_in self.old handle)) }
    {
        let after = match self.watcher(handle) {
            Some(watcher) => Some(self.after_end(watcher)),
            None => None,
        };
        self.put(handle, after);
    }

    /// Counts a call with this reply.
    pub(super) fn count_call<V: Copy>(
        &mut self,
        call: &WCall<V>,
        reply: &WReply<V>,
    ) -> Result<(), NoMemory>
//~         requires { HasRoom self.old }
//~         ensures { OnOk result (self.new ≡ with_call self.old call.now reply.now) }
    {
        match (*call, *reply) {
            (_, WReply::Stored) | (_, WReply::Old(_)) => self.version += 1,
            (_, WReply::Told(told)) => self.version += u64::from(told),
            (_, WReply::New(_)) => {
                let watcher = self.made_watcher(call);
                self.watchers.push(watcher)?;
            }
            (WCall::Borrow(handle), WReply::Value(_)) => self.look(handle),
            (WCall::Update(handle), WReply::Value(_)) => self.update(handle),
            (WCall::Changed(handle), WReply::Done) => self.change(handle),
            (WCall::MarkUnchanged(handle), WReply::Done) => self.mark(handle),
            (WCall::DropHandle(handle), WReply::Dropped) => self.end(handle),
            _ => {}
        }
        Ok(())
    }

    /// Returns what a receiver was told of, what it missed and what it never looked at, if the handle ever was a receiver.
    pub(super) fn counts(&self, handle: u32) -> Option<WatchCounts>
//~         requires { HasRoom self.now }
//~         ensures { result ≡ option_map (counts_from self.now) (watcher_in self.now handle) }
    {
        let watcher = self.watcher(handle)?;
        Some(WatchCounts {
            changes: watcher.changes,
            missed: watcher.marks.unseen_at(watcher.alive, self.version),
            unlooked: watcher.looks.unseen_at(watcher.alive, self.version),
        })
    }
}
