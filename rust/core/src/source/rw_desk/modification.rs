//! The call that modifies a watch's value with a closure.
// From crates/rw_desk/src/modification.rt, with its contracts as comments. //+

//~ ghost use Rattle.std.specs.Prelude.{◌≡◌, Bool};
//~ ghost use Rattle.std.specs.Fn.{FnOnceReturnsAtMut};
//~ ghost use Rattle.rw_world.specs.declared.kinds.ChannelKind.TheVariants as kind;
//~ ghost use Rattle.rw_world.specs.Kinds.{channel_kind};
//~ ghost use Rattle.rw_world.specs.Machines.{of_chan};
//~ ghost use Rattle.rw_desk.specs.Modifying.{IsModification};

use crate::source::rw_handles::Kind;
use crate::source::rw_watch::WCall;
use crate::source::rw_world::Chan;

/// What a closure that modifies a value returns: whether the receivers are notified. They are if it returns nothing.
pub trait Told {
//~     /// Whether they are notified.
//~     ghost tells: { Self → Bool };

    fn is_told(self) -> bool
        /*~ensures { result ≡ tells self }~*/;
}

impl Told for bool {
//~     ghost tells = { λ told. told };

    fn is_told(self) -> bool {
        self
    }
}

impl Told for () {
//~     ghost use Rattle.std.specs.Prelude.{true};

//~     ghost tells = { λ nothing. true };

    fn is_told(self) -> bool {
        true
    }
}

/// Returns the call by which this sender stores what f makes of the value of a watch. If the handle isn't a live sender, f isn't
/// called, and the call has the value unchanged.
pub(crate) fn modification<V: Copy, T: Told, F: FnOnce(&mut V) -> T>(
    channel: &Chan<V>,
    sender: u32,
    f: F,
) -> WCall<V>
//~     requires f { F.IsAlwaysCallable f }
//~     requires watch { channel_kind ((of_chan {V = V}).shown channel.now) ≡ kind.Watch }
//~     ensures { IsModification
//~         (λ v told w. (t : T) × FnOnceReturnsAtMut F.FnOnce f v t w × (told ≡ T.tells t))
//~         ((of_chan {V = V}).shown channel.now) sender result }
{
    let Chan::Watch(channel) = channel else {
        unreachable!()
    };
    match channel.kind(sender) {
        Some(Kind::Sender) => {
            let mut value = channel.value();
            let told = f(&mut value).is_told();
            WCall::Modify {
                told,
                handle: sender,
                value,
            }
        }
        _ => WCall::Modify {
            told: false,
            handle: sender,
            value: channel.value(),
        },
    }
}
