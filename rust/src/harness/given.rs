//! Macros that name what is of this crate, and do nothing with the same of another one.
//!
//! A test that is committed may run over tokio itself, or over this crate by a patch of tokio. By
//! the methods of a recorder it would compile over this crate alone.

use crate::channels::recorder::{Handle, Recorder};

/// Names a receiver, or the channel of a sender, if it is one of this crate. If it is one of tokio,
/// nothing is done.
///
/// It is [`Recorder::name`] for a test that also runs where nothing is swapped:
/// `name!(recorder, &tx, "orders")`. The type of the handle decides, so it has to be known where
/// the macro is used: in a function that is generic over it, nothing is done.
///
/// # Panics
///
/// As [`Recorder::name`].
///
/// # Examples
///
/// ```
/// use yovanelum::{Recorder, broadcast};
///
/// let recorder = Recorder::for_test("each_order_is_announced");
/// let (orders, mailer) = broadcast::channel::<u32>(4);
/// yovanelum::name!(recorder, &orders, "orders");
/// yovanelum::name!(recorder, &mailer, "mailer");
/// assert!(recorder.names().contains(r#""channels": {"0": "orders"}"#));
///
/// // What isn't of this crate is left alone.
/// let (orders, _mailer) = std::sync::mpsc::channel::<u32>();
/// yovanelum::name!(recorder, &orders, "others");
/// assert!(!recorder.names().contains("others"));
/// ```
#[doc(hidden)]
#[macro_export]
macro_rules! name {
    ($recorder:expr, $handle:expr, $name:expr $(,)?) => {{
        #[allow(unused_imports)]
        use $crate::given::{Given, OfOthers as _, OfThisCrate as _};
        (&Given($handle)).name_by(&$recorder, $name);
    }};
}

/// Records a text of each value that is sent on the channel of a sender or of a receiver, if it is
/// one of this crate. If it is one of tokio, nothing is done.
///
/// It is [`Recorder::show`] for a test that also runs where nothing is swapped. The function says
/// the type of its values, which is not known from a channel of another crate.
///
/// # Panics
///
/// As [`Recorder::show`].
///
/// # Examples
///
/// ```
/// use yovanelum::{Recorder, broadcast};
///
/// let recorder = Recorder::for_test("each_order_is_announced");
/// let (orders, mailer) = broadcast::channel(4);
/// yovanelum::show!(recorder, &mailer, |id: &u32| format!("order {id}"));
/// orders.send(71).unwrap();
/// assert!(recorder.names().contains(r#"{"0": "order 71"}"#));
///
/// // What isn't of this crate is left alone.
/// let (orders, _mailer) = std::sync::mpsc::channel();
/// yovanelum::show!(recorder, &orders, |id: &u32| format!("another order {id}"));
/// orders.send(72).unwrap();
/// assert!(!recorder.names().contains("another order"));
/// ```
#[doc(hidden)]
#[macro_export]
macro_rules! show {
    ($recorder:expr, $handle:expr, $text:expr $(,)?) => {{
        #[allow(unused_imports)]
        use $crate::given::{Given, OfOthers as _, OfThisCrate as _};
        (&Given($handle)).show_by(&$recorder, $text);
    }};
}

/// What a macro was given.
pub struct Given<T>(pub T);

/// Is implemented for what is of this crate. The compiler takes it first, since it needs one
/// reference less.
pub trait OfThisCrate {
    type Value;

    fn name_by(&self, recorder: &Recorder, name: &str);

    fn show_by(
        &self,
        recorder: &Recorder,
        text: impl Fn(&Self::Value) -> String + Send + Sync + 'static,
    );
}

impl<H: Handle> OfThisCrate for Given<&H> {
    type Value = H::Value;

    #[track_caller]
    fn name_by(&self, recorder: &Recorder, name: &str) {
        recorder.name(self.0, name);
    }

    #[track_caller]
    fn show_by(
        &self,
        recorder: &Recorder,
        text: impl Fn(&H::Value) -> String + Send + Sync + 'static,
    ) {
        recorder.show(self.0, text);
    }
}

/// Is implemented for everything.
pub trait OfOthers {
    fn name_by(&self, _recorder: &Recorder, _name: &str) {}

    fn show_by<V: ?Sized>(
        &self,
        _recorder: &Recorder,
        _text: impl Fn(&V) -> String + Send + Sync + 'static,
    ) {
    }
}

impl<T> OfOthers for &Given<T> {}
