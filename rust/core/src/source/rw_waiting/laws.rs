//! What holds of the calls that wait.
// From crates/rw_waiting/src/laws.rt, with its contracts as comments. //+
//~ ghost use Rattle.rw_waiting.specs.Broadcasts.{IsToldByPatch, IsToldByReply, IsToldByReplyAlone, RenumbersSo, of_broadcast};
//~ ghost use Rattle.rw_waiting.specs.Watches.{of_watch};
//~ ghost use Rattle.rw_waiting.specs.Watches as watches;
//~ ghost use Rattle.rw_waiting.specs.Waitable.{WaitLaws};
//~ ghost use Rattle.rw_waiting.specs.Steps.{IsWokenOrListed, NobodyWaitsInVain, WakesOnce, WakesOnlyTheReady};

/// The laws of waiting, for broadcasts: who waits, waits until a call tells, and no longer. The function does nothing: its
/// clauses are the laws.
pub fn broadcast_waiting<V: Copy>()
//~     ensures laws { WaitLaws (of_broadcast V) }
    // What a call told is known from its patch.
//~     ensures patch { IsToldByPatch V }
    // It is known from its reply, too, and of a drop from the counts before and after it.
//~     ensures reply { IsToldByReply V }
//~     ensures reply_alone { IsToldByReplyAlone V }
    // `renumber` leaves what the laws say of it.
//~     ensures renumber { RenumbersSo V }
{}

/// The same, for watches.
pub fn watch_waiting<V: Copy>()
//~     ensures laws { WaitLaws (of_watch V) }
//~     ensures patch { watches.IsToldByPatch V }
//~     ensures reply { watches.IsToldByReply V }
//~     ensures reply_alone { watches.IsToldByReplyAlone V }
//~     ensures renumber { watches.RenumbersSo V }
{}

/// Nobody waits in vain for a broadcast. The function does nothing: its clauses are the laws.
pub fn nobody_waits_in_vain_for_broadcast<V: Copy, W/*~: Drop~*/>()
    // As long as a call is listed, it would wait in the channel as it is.
//~     ensures in_vain { NobodyWaitsInVain (of_broadcast V) W }
    // Once it is woken, it would not.
//~     ensures ready { WakesOnlyTheReady (of_broadcast V) W }
    // It is woken or still listed, unless it gives up.
//~     ensures nobody_lost { IsWokenOrListed (of_broadcast V) W }
    // No ticket is woken twice.
//~     ensures once { WakesOnce (of_broadcast V) W }
{}

/// Nobody waits in vain for a watch. The function does nothing: its clauses are the laws.
pub fn nobody_waits_in_vain_for_watch<V: Copy, W/*~: Drop~*/>()
//~     ensures in_vain { NobodyWaitsInVain (of_watch V) W }
//~     ensures ready { WakesOnlyTheReady (of_watch V) W }
//~     ensures nobody_lost { IsWokenOrListed (of_watch V) W }
//~     ensures once { WakesOnce (of_watch V) W }
{}
