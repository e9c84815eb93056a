//! What holds of the values of a broadcast, and of a watch.
// From crates/rw_values/src/laws.rt, with its contracts as comments. //+
//~ ghost use Rattle.rw_values.specs.Counts.{AllAwaitTheNext, CountsDown};
//~ ghost use Rattle.rw_values.specs.Following.{HasWhatWasSent, StoreFollows};
//~ ghost use Rattle.rw_values.specs.Named.{RepliesByName, RepliesByNameThroughout};
//~ ghost use Rattle.rw_values.specs.NamedWatch.{WatchRepliesByName, WatchRepliesByNameThroughout};
//~ ghost use Rattle.rw_values.specs.Once.{GivesOrKeeps, KeepsWhatIsAwaited};
//~ ghost use Rattle.rw_values.specs.Watched.{StoresTheLast};

/// A broadcast of numbers replies with the numbers of the values that the same broadcast of values replies with. The function
/// does nothing: its clauses are the laws.
pub fn by_number<N: Copy, T>()
//~     ensures each { RepliesByName N T }
//~     ensures throughout { RepliesByNameThroughout N T }
{}

/// A watch of numbers replies with the numbers of the values that the same watch of values replies with. The function does
/// nothing: its clauses are the laws.
pub fn watch_by_number<N: Copy, T>()
//~     ensures each { WatchRepliesByName N T }
//~     ensures throughout { WatchRepliesByNameThroughout N T }
{}

/// What is stored beside a watch of numbers is the value of the number that it holds: the last one sent. The function does nothing:
/// its clause is the law.
pub fn watch_stores<N: Copy, T>()
//~     ensures { StoresTheLast N T }
{}

/// How many receivers have yet to receive a value: what a store counts down. The function does nothing: its clauses are the laws.
pub fn counts<V: Copy>()
    // A send begins with all receivers that are alive.
//~     ensures sent { AllAwaitTheNext V }
    // A receive counts down the value that it returns, a lag those that it skips, and a drop those that were unread.
//~     ensures down { CountsDown V }
{}

/// A store gives each value back once, when nobody has yet to receive it. The function does nothing: its clauses are the laws.
pub fn gives_once<V>()
    // What one receiver less gives back, and what it leaves, is what was there.
//~     ensures once { GivesOrKeeps V }
    // It leaves the value exactly as long as somebody has yet to receive it.
//~     ensures awaited { KeepsWhatIsAwaited V }
{}

/// What a store keeps beside a channel of these values. The function does nothing: its clauses are the laws.
pub fn follows<V: Copy>()
    // A send puts the value, a receive and a drop count receivers down, and then the store keeps what the channel shows.
//~     ensures steps { StoreFollows V }
    // Each receiver that has a value to receive finds the one that was sent to its position.
//~     ensures sent { HasWhatWasSent V }
{}
