//! What holds of every broadcast channel.
// From crates/rw_broadcast/src/laws.rt, with its contracts as comments. //+
//~ ghost use Rattle.rw_broadcast.specs.Alike.{AlikeTwice, RenamedAreAlike, RepliesAlike, RepliesAlikeThroughout};
//~ ghost use Rattle.rw_broadcast.specs.Dozing.{RepliesDozing, RepliesDozingThroughout};
//~ ghost use Rattle.rw_broadcast.specs.Leading.{LeadsTo};
//~ ghost use Rattle.rw_broadcast.specs.Planning.{DoesWhatIsPlanned};
//~ ghost use Rattle.rw_broadcast.specs.Raised.{RepliesRaised};
//~ ghost use Rattle.rw_broadcast.specs.Renaming.{RepliesRenamed};
//~ ghost use Rattle.rw_broadcast.specs.Laws.{IsShownBySome, RepliesByRecord, RetainsNextPower, ShowsAllowed, ShowsItsRecord, ShowsItsSteps};

/// The laws of the table of calls, for every type of values. The function does nothing: its clauses are the laws.
pub fn channel_laws<V: Copy>()
    // A step on what is shown is the documented step of the record that shows it.
//~     ensures steps { ShowsItsSteps V }
    // After any calls from its opening, a channel shows what its record shows, and replies as its record does.
//~     ensures record { ShowsItsRecord V }
//~     ensures replies { RepliesByRecord V }
    // After any calls, what a channel shows is allowed. All that is allowed is shown by some record.
//~     ensures allowed { ShowsAllowed V }
//~     ensures shown { IsShownBySome V }
    // With other numbers of handles, each call has the same reply, but for the number of a new handle.
//~     ensures renamed { RepliesRenamed V }
    // Where a channel retains all that it can, no reply tells how many values were sent before.
//~     ensures raised { RepliesRaised V }
    // As long as a receiver that lags isn't asked, no reply tells by how many values it lags.
//~     ensures dozing { RepliesDozing V }
//~     ensures dozing_throughout { RepliesDozingThroughout V }
    // Where the retained values are the same, and how many of them each handle has to receive, under whatever numbers, so are the
    // replies, but for those numbers.
//~     ensures alike { RepliesAlike V }
//~     ensures throughout { RepliesAlikeThroughout V }
//~     ensures renamed_alike { RenamedAreAlike V }
//~     ensures alike_twice { AlikeTwice V }
    // The retained capacity is the least power of two that is at least the requested one.
//~     ensures power { RetainsNextPower }
{}

/// The laws of a lead: calls that nobody made, and that lead a new channel to what a channel shows. The function does nothing:
/// its clauses are the laws.
pub fn leads<V: Copy>()
    // Sends and makings by sender 0 lead to the values sent and the handles made, each receiver where the values ended then.
//~     ensures acts { LeadsTo V }
    // For positions that don't fall, a plan sends the values and makes a receiver at each position.
//~     ensures plans { DoesWhatIsPlanned V }
{}
