//! What windows show, by the whole history of their channel.
// From crates/rw_recording/src/laws.rt, with its contracts as comments. //+

//~ ghost use Rattle.rw_recording.specs.History.{JoinedAreLast, KeptAreLast, PastIsEnd, SkippedAreLast, WindowsShowHistory};

/// The laws of the last calls of a channel and of their windows. The function does nothing: its clauses are the laws.
pub fn windows_show_history()
    // The kept calls of a flight are the last of all that were ever made, and so they are where the first of them are skipped.
//~     ensures kept { KeptAreLast }
//~     ensures skipped { SkippedAreLast }
    // Where the handles were numbered anew, so are the calls before that with the later ones, by the numbers of before.
//~     ensures past { PastIsEnd }
//~     ensures joined { JoinedAreLast }
    // At each place behind the lead a window shows what the channel showed after as many of all calls, and its entries are those of the
    // callers: but for the numbers of handles, of values sent and of versions.
//~     ensures window { WindowsShowHistory }
{}
