//! What holds of every watch channel.
// From crates/rw_watch/src/laws.rt, with its contracts as comments. //+
//~ ghost use Rattle.rw_watch.specs.Alike.{AlikeTwice, RenamedAreAlike, RepliesAlike, RepliesAlikeThroughout};
//~ ghost use Rattle.rw_watch.specs.Recent.{RepliesRecent};
//~ ghost use Rattle.rw_watch.specs.Renaming.{RepliesRenamed};
//~ ghost use Rattle.rw_watch.specs.Laws.{IsShownBySome, RepliesByRecord, ShowsAllowed, ShowsItsRecord, ShowsItsSteps};

/// The laws of the table of calls, for every type of values. The function does nothing: its clauses are the laws.
pub fn channel_laws<V: Copy>()
    // A step on what is shown is the documented step of the record that shows it.
//~     ensures steps { ShowsItsSteps V }
    // After any calls from its opening, a channel shows what its record shows, and replies as its record does.
//~     ensures record { ShowsItsRecord V }
//~     ensures replies { RepliesByRecord V }
    // After any calls, what a channel shows is allowed. All that can be shown is shown by some record.
//~     ensures allowed { ShowsAllowed V }
//~     ensures shown { IsShownBySome V }
    // With other numbers of handles, each call has the same reply, but for the number of a new handle.
//~     ensures renamed { RepliesRenamed V }
    // No reply tells which versions there were before.
//~     ensures recent { RepliesRecent V }
    // Where the value and those who have seen it are the same, under whatever numbers, so are the replies, but for those numbers.
//~     ensures alike { RepliesAlike V }
//~     ensures throughout { RepliesAlikeThroughout V }
//~     ensures renamed_alike { RenamedAreAlike V }
//~     ensures alike_twice { AlikeTwice V }
{}
