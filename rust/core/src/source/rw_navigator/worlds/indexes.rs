//! The indexes of the conditions on entries that were searched for.
// From crates/rw_navigator/src/worlds/indexes.rt, with its contracts as comments. //+
use crate::shim::Vec; //+

//~ ghost use Rattle.std.specs.Prelude.{◌≡◌, IfSome, IsSome, IsTrue};
//~ ghost use Rattle.rw_navigator.specs.Conditions.{asks_step, holds_of_step};
//~ ghost use Rattle.rw_world.specs.Specified.{WorldEntry};

use super::condition::Cond;
use crate::source::rw_navigator::conditions::Probe;
use crate::source::rw_navigator::hit_index::HitIndex;
use crate::source::rw_navigator::places::Navigator;
use crate::source::rw_law::Entry;
use crate::source::rw_world::World;
use crate::shim::alloc::Global;
//~ use std::marker::Model;
use crate::shim::snapshot::Snapshot;

/// The most indexes that a debugger has at a time.
///
/// The memory of indexes is bounded without it. An entry meets three conditions at most, by its actor, its channel and its kind of
/// reply, and no condition is indexed twice. So all indexes of a debugger together have at most three places an entry.
pub const MOST_INDEXES: usize = 256;

/// A condition on entries, and the places where it is met.
//~ #[derive(Drop)]
struct CondIndex<V: Copy> {
    cond: Cond,
    index: HitIndex<World<V>, Cond>,
//~     ghost of_cond: { index.probe ≡ cond },
}

impl<V: Copy> CondIndex<V> {
    /// Builds the index of a condition on entries, or returns `None` if memory runs out.
    fn build(alloc: Global, visit: &Navigator<World<V>>, cond: Cond) -> Option<CondIndex<V>>
//~         requires { IsTrue (asks_step cond) }
//~         ensures cond { IfSome result (λ built. built.cond ≡ cond) }
//~         ensures entries { IfSome result (λ built. built.index.entries ≡ visit.now.entries) }
    {
        let index = HitIndex::build(alloc, visit, &cond).ok()?;
        Some(CondIndex { cond, index })
    }
}

/// Indexes of conditions on the same entries. No two are of one condition.
//~ #[derive(Drop)]
pub struct Indexes<V: Copy> {
    // Has no bytes: it shows the entries to contracts.
    entries: Snapshot<Vec<Entry<World<V>>>>,
    list: Vec<CondIndex<V>>,
}

//~ impl<V: Copy> Model for Indexes<V> {
//~     ghost use Rattle.std.specs.Prelude.{◌≡◌, All, List};
//~     ghost use Rattle.rw_world.specs.Specified.{WorldEntry as EntryOf};
//~
//~     ghost Value = { List (EntryOf V) };
//~
//~     ghost view = { λ a. a.entries.value.items };
//~
//~     ghost invariant = { λ a. All (λ i. i.index.entries ≡ a.entries.value.items) a.list.items };
//~ }

impl<V: Copy> Indexes<V> {
    /// Returns the indexes that were kept or, if there are none, a list for indexes over a visit's entries. It allocates nothing.
    pub fn of_visit(
        kept: Option<Indexes<V>>,
        alloc: Global,
        visit: &Navigator<World<V>>,
    ) -> Indexes<V>
//~         requires { IfSome kept (λ entries. entries ≡ visit.now.entries) }
//~         ensures { result ≡ visit.now.entries }
    {
        match kept {
            Some(indexes) => indexes,
            None => Indexes {
                entries: Snapshot::of(&visit.entries),
                list: Vec::new(alloc),
            },
        }
    }

    /// Returns the index of a condition, if it is there.
    pub fn get(&self, cond: Cond) -> Option<&HitIndex<World<V>, Cond>>
//~         ensures entries { IfSome result (λ index. index.now.entries ≡ self.now) }
//~         ensures step { IsSome result → IsTrue (asks_step cond) }
//~         ensures same { IfSome result (λ index. (e : WorldEntry V) → holds_of_step index.now.probe e ≡ holds_of_step cond e) }
    {
        for i in 0..self.list.len() {
            if asks_the_same::<V>(cond, self.list[i].cond) {
                return Some(&self.list[i].index);
            }
        }
        None
    }

    /// Indexes a condition on entries, unless it is indexed already or memory runs out.
    pub fn keep(&mut self, alloc: Global, visit: &Navigator<World<V>>, cond: Cond)
//~         requires { visit.now.entries ≡ self.old }
//~         ensures { self.new ≡ self.old }
    {
        if self.get(cond).is_some() || !<Cond as Probe<World<V>>>::on_step(&cond) {
            return;
        }
        if self.list.len() >= MOST_INDEXES {
            self.list.clear();
        }
        if self.list.reserve(1).is_err() {
            return;
        }
        if let Some(built) = CondIndex::build(alloc, visit, cond) {
            self.list.push_reserved(built);
        }
    }
}

/// Whether both are the same condition on entries. A condition on entries compares equal to itself, so repeating a search
/// builds no second index.
fn asks_the_same<V: Copy>(cond: Cond, other: Cond) -> bool
//~     ensures step { IsTrue result → IsTrue (asks_step cond) }
//~     ensures itself { IsTrue (asks_step cond) → cond ≡ other → IsTrue result }
//~     ensures same { IsTrue result → (e : WorldEntry V) → holds_of_step other e ≡ holds_of_step cond e }
{
    match (cond, other) {
        (Cond::Actor(actor), Cond::Actor(other)) => actor == other,
        (Cond::Channel(channel), Cond::Channel(other)) => channel == other,
        (Cond::ReplyKind(word), Cond::ReplyKind(other)) => word.text() == other.text(),
        _ => false,
    }
}
