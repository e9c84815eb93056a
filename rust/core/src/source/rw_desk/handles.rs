//! The handles of a desk's channels. Each names a channel and the number of a handle there.
//!
//! They can't be copied: a handle is dropped by the call that consumes it. One that only goes out of scope stays alive in its
//! channel.
// From crates/rw_desk/src/handles.rt, with its contracts as comments. //+

//~ ghost use Rattle.std.specs.Prelude.{◌≡◌};

/// A sender of a broadcast channel.
#[derive(Debug/*~, Drop~*/, PartialEq, Eq)]
pub struct BTx {
    pub(crate) channel: u32,
    pub(crate) number: u32,
}

/// A receiver of a broadcast channel.
#[derive(Debug/*~, Drop~*/, PartialEq, Eq)]
pub struct BRx {
    pub(crate) channel: u32,
    pub(crate) number: u32,
}

/// A sender of a watch channel.
#[derive(Debug/*~, Drop~*/, PartialEq, Eq)]
pub struct WTx {
    pub(crate) channel: u32,
    pub(crate) number: u32,
}

/// A receiver of a watch channel.
#[derive(Debug/*~, Drop~*/, PartialEq, Eq)]
pub struct WRx {
    pub(crate) channel: u32,
    pub(crate) number: u32,
}

/// The two handles that a channel has from the beginning.
#[derive(Debug/*~, Drop~*/, PartialEq, Eq)]
pub enum Ends {
    Broadcast(BTx, BRx),
    Watch(WTx, WRx),
}

impl BTx {
    pub fn channel(&self) -> u32
//~         ensures { result ≡ self.now.channel }
    {
        self.channel
    }

    pub fn number(&self) -> u32
//~         ensures { result ≡ self.now.number }
    {
        self.number
    }
}

impl BRx {
    pub fn channel(&self) -> u32
//~         ensures { result ≡ self.now.channel }
    {
        self.channel
    }

    pub fn number(&self) -> u32
//~         ensures { result ≡ self.now.number }
    {
        self.number
    }
}

impl WTx {
    pub fn channel(&self) -> u32
//~         ensures { result ≡ self.now.channel }
    {
        self.channel
    }

    pub fn number(&self) -> u32
//~         ensures { result ≡ self.now.number }
    {
        self.number
    }
}

impl WRx {
    pub fn channel(&self) -> u32
//~         ensures { result ≡ self.now.channel }
    {
        self.channel
    }

    pub fn number(&self) -> u32
//~         ensures { result ≡ self.now.number }
    {
        self.number
    }
}
