//! A loss.
// From crates/rw_findings/src/losses/loss.rt, with its contracts as comments. //+

//~ ghost use Rattle.std.specs.Prelude.{◌≡◌};
//~ ghost use Rattle.rw_findings.specs.Losses.{order_of};

/// How a loss ended.
#[derive(Clone, Copy, Debug, PartialEq, Eq)]
pub enum LossEnd {
    /// The receiver was told of it by the call that leads to this place.
    Told(u64),
    /// The receiver was dropped by the call that leads to this place. It was never told.
    Dropped(u64),
    /// The run ends before either.
    Open,
}

/// Values of a broadcast that were overwritten before a receiver had received them: a longest stretch of places at which the
/// receiver lags.
#[derive(Clone, Copy, Debug, PartialEq, Eq)]
pub struct Loss {
    pub channel: u32,
    pub receiver: u32,
    /// The place at which the lag began: that of the send which overwrote the first lost value.
    pub from: u64,
    /// How many values were lost.
    pub lost: u64,
    pub end: LossEnd,
}

impl Loss {
    /// Returns the number by which losses are sorted: first by `from`, then by channel, then by receiver.
    pub(super) fn order(&self) -> u128
//~         ensures { result ≡ order_of self.now }
    {
        (u128::from(self.from) * 4_294_967_296 + u128::from(self.channel)) * 4_294_967_296
            + u128::from(self.receiver)
    }
}
