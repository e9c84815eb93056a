//! Laws of rows and of worlds, for the layers above. Each is the contract of a function that does nothing.
// From crates/rw_world/src/laws.rt, with its contracts as comments. //+

//~ ghost use Rattle.rw_law.specs.Journal.{IsLegal, after_all};
//~ ghost use Rattle.rw_world.specs.Kinds.{channel_kind};
//~ ghost use Rattle.rw_world.specs.Channel.{no_channel, strays_at};
//~ ghost use Rattle.rw_world.specs.Commuting.{Commutes};
//~ ghost use Rattle.rw_world.specs.Renaming.{RepliesRenamed, RepliesRenamedThroughout};
//~ ghost use Rattle.rw_world.specs.Shapes.{KeepsShape, KeepsShapeThroughout, StraysByShape};
//~ ghost use Rattle.rw_world.specs.Parts.{IsLegalExactlyByParts};
//~ ghost use Rattle.rw_world.specs.Records.{RecordsAsDocumented, RepliesByRecords, ShowsAtPlaces, ShowsItsRecords, ShowsItsSteps};
//~ ghost use Rattle.rw_world.specs.Specified.{AreLegalOfChannels, AreLegalOfWorlds, IsAfterOfWorlds, IsLegalExactlyBySpecs, OpensAsSpecified, StraysBySpecs};

use crate::source::rw_world::channels::Chan;
use crate::source::rw_world::members::Member;
use crate::source::rw_world::opening::World;
use crate::source::rw_law::Reversible;

/// Calls on two different channels lead to the same row in either order, and get the same replies and patches.
pub fn commutes<M: Member>()
//~     ensures { Commutes M.Reversible M.missing }
{}

/// A journal of a row is legal exactly where each channel's part of it is legal from the channel's machine, and each
/// entry's channel is there.
pub fn legal_by_parts<M: Member>()
//~     ensures { IsLegalExactlyByParts M.Reversible M.missing }
{}

/// No step changes which kind of channel is under which number. Whether a call gets `NoChannel` depends on that alone.
pub fn shape<V: Copy>()
//~     ensures keeps { KeepsShape ⟦<Chan<V> as Reversible>⟧ channel_kind strays_at }
//~     ensures throughout { KeepsShapeThroughout ⟦<Chan<V> as Reversible>⟧ channel_kind strays_at no_channel }
//~     ensures strays { StraysByShape ⟦<Chan<V> as Reversible>⟧ channel_kind strays_at no_channel }
{}

/// A world opens with the kinds of channels in its specs. After any journal, whether a call gets `NoChannel` depends on the
/// specs alone. A journal is legal from the opening exactly where each channel's part of it is legal from the channel's spec.
pub fn specified<V: Copy>()
//~     ensures opens { OpensAsSpecified V }
//~     ensures strays { StraysBySpecs V }
//~     ensures legal { IsLegalExactlyBySpecs V }
{}

/// The channels and worlds of the definitions are the machines of this crate: the same journals are legal, and lead to the
/// same states.
pub fn machines<V: Copy>()
//~     ensures channels { AreLegalOfChannels (IsLegal ⟦<Chan<V> as Reversible>⟧) }
//~     ensures worlds { AreLegalOfWorlds (IsLegal ⟦<World<V> as Reversible>⟧) }
//~     ensures after { IsAfterOfWorlds (after_all ⟦<World<V> as Reversible>⟧) }
{}

/// With other numbers of handles, a channel has the same reply to each call, but for the number of a new handle.
pub fn renamed<V: Copy>()
//~     ensures step { RepliesRenamed V }
//~     ensures throughout { RepliesRenamedThroughout V }
{}

/// The documented world: a world behaves as the records of its channels, which have all that was ever sent.
pub fn documented<V: Copy>()
    // After any calls it shows what they show, and replies to a call as they do.
//~     ensures shows { ShowsItsRecords V }
//~     ensures replies { RepliesByRecords V }
    // The same at the places of a journal: what is shown after n entries, and the reply of each.
//~     ensures places { ShowsAtPlaces V }
//~     ensures recorded { RecordsAsDocumented V }
    // Step by step, from all records whose shown state is allowed.
//~     ensures steps { ShowsItsSteps V }
{}
