//! Values of any type that has `Debug`, told without a bound by specialization, which is unstable.
//! It is no part of a build unless `cargo yovanelum --debug-values` asks for it.
//!
//! Specialization doesn't see lifetimes: where a type has `Debug` for `'static` alone, it would
//! call that for a shorter one too. So a value has a text only where no lifetime is in its type.

use super::LaterText;
use super::shown::{Guarded, guarded, guarded_start};
use std::any::type_name;
use std::fmt::Debug;

/// A value that may have a text.
trait MayDebug {
    fn text(&self) -> Option<String>;

    /// Clones the value, for its text.
    fn later_text<'a>(&self) -> Option<LaterText<'a>>
    where
        Self: 'a;
}

impl<T> MayDebug for T {
    default fn text(&self) -> Option<String> {
        None
    }

    default fn later_text<'a>(&self) -> Option<LaterText<'a>>
    where
        Self: 'a,
    {
        None
    }
}

impl<T: Debug> MayDebug for T {
    fn text(&self) -> Option<String> {
        guarded_start(format_args!("{self:?}"))
    }

    default fn later_text<'a>(&self) -> Option<LaterText<'a>>
    where
        Self: 'a,
    {
        None
    }
}

impl<T: Debug + Clone> MayDebug for T {
    fn later_text<'a>(&self) -> Option<LaterText<'a>>
    where
        Self: 'a,
    {
        let Guarded::Returned(clone) = guarded(|| Box::new(self.clone())) else {
            return None;
        };
        Some(Box::new(move || {
            let text = clone.text();
            // Its drop is user code too.
            guarded(|| drop(clone));
            text
        }))
    }
}

/// Whether no lifetime is in a type, as its name says, in which compilers since 2025 write them.
fn has_no_lifetime<T>() -> bool {
    struct Borrowed<'a>(#[expect(dead_code)] &'a u8);
    let are_written = type_name::<Borrowed<'static>>().contains('\'');
    // References, trait objects and what closures borrow are written without theirs.
    let name = type_name::<T>();
    are_written && !["'", "&", "dyn ", "{{"].iter().any(|it| name.contains(it))
}

/// Returns the text of a value, if its type has `Debug` and no lifetime.
pub(super) fn text_of<T>(value: &T) -> Option<String> {
    has_no_lifetime::<T>().then(|| value.text())?
}

/// Clones a value for its text, if its type has `Debug`, `Clone` and no lifetime.
pub(super) fn later_text_of<'a, T: 'a>(value: &T) -> Option<LaterText<'a>> {
    has_no_lifetime::<T>().then(|| value.later_text())?
}

#[cfg(test)]
mod tests {
    use super::*;
    use crate::{Recorder, broadcast, watch};
    use std::fmt;

    #[derive(Clone, Debug)]
    struct Paid<T>(T);

    struct OfStatic<'a>(&'a str);

    impl Debug for OfStatic<'static> {
        fn fmt(&self, f: &mut fmt::Formatter<'_>) -> fmt::Result {
            f.write_str(self.0)
        }
    }

    struct Panics;

    impl Debug for Panics {
        fn fmt(&self, _: &mut fmt::Formatter<'_>) -> fmt::Result {
            panic!("no text of {}", 7)
        }
    }

    #[test]
    fn a_value_has_a_text_where_its_type_has_no_lifetime() {
        assert_eq!(text_of(&Paid(7)).as_deref(), Some("Paid(7)"));
        let local = String::from("of this frame");
        // Its `Debug` is for `'static` alone, and would be called for this too.
        assert_eq!(text_of(&OfStatic(&local)), None);
        assert_eq!(text_of(&OfStatic("all")), None);
        assert_eq!(text_of(&Paid(local.as_str())), None);
        assert_eq!(
            text_of(&Paid(Box::new(7) as Box<dyn Debug>)).is_none(),
            true
        );
        assert!(has_no_lifetime::<Paid<Vec<String>>>());
        assert!(!has_no_lifetime::<fn(&u8)>() && !has_no_lifetime::<std::slice::Iter<'_, u8>>());
    }

    #[test]
    fn a_large_value_is_formatted_up_to_a_limit() {
        use std::sync::atomic::{AtomicUsize, Ordering};
        static SHOWN: AtomicUsize = AtomicUsize::new(0);

        #[derive(Debug)]
        #[expect(dead_code)]
        struct LentFrame {
            bytes: Vec<Counted>,
        }

        struct Counted;

        impl Debug for Counted {
            fn fmt(&self, f: &mut fmt::Formatter<'_>) -> fmt::Result {
                SHOWN.fetch_add(1, Ordering::Relaxed);
                let _ = f.write_str("7");
                Ok(())
            }
        }

        let bytes = (0..1_000_000).map(|_| Counted).collect();
        let text = text_of(&LentFrame { bytes }).unwrap();
        assert!(text.starts_with("LentFrame { bytes: [7, 7, "), "{text}");
        assert!(text.ends_with("… (more than 256 bytes)"), "{text}");
        assert!(SHOWN.load(Ordering::Relaxed) <= 256);
        assert!(!super::super::is_showing());
    }

    #[test]
    fn a_debug_that_panics_is_no_panic() {
        let text = text_of(&Panics);
        assert_eq!(text.as_deref(), Some("its `Debug` panicked: no text of 7"));
        assert!(!super::super::is_showing());
    }

    /// Its `Debug` waits until another watch has a value.
    #[derive(Clone)]
    struct WaitsInDebug(watch::Receiver<bool>);

    impl Debug for WaitsInDebug {
        fn fmt(&self, f: &mut fmt::Formatter<'_>) -> fmt::Result {
            while !*self.0.borrow() {
                std::thread::yield_now();
            }
            f.write_str("it has waited")
        }
    }

    #[test]
    fn a_debug_that_waits_holds_no_lock_of_its_channel() {
        let recorder = Recorder::new();
        recorder.0.show_known();
        let _entered = recorder.enter();
        let (tx, rx) = watch::channel(None);
        let (waited, waits) = watch::channel(false);
        let sender = std::thread::spawn(move || {
            while rx.borrow().is_none() {
                std::thread::yield_now();
            }
            waited.send(true).unwrap();
            rx
        });
        tx.send_modify(|value| *value = Some(WaitsInDebug(waits)));
        sender.join().unwrap();
        let names = recorder.names();
        assert!(names.contains(r#""1": "Some(it has waited)""#), "{names}");
    }

    #[test]
    fn a_debug_that_sends_on_its_channel_has_no_text_there() {
        #[derive(Clone)]
        struct Sends(broadcast::Sender<Sends>);

        impl Debug for Sends {
            fn fmt(&self, f: &mut fmt::Formatter<'_>) -> fmt::Result {
                let sent = self.0.send(self.clone());
                write!(f, "sent to {:?}", sent.ok())
            }
        }

        let recorder = Recorder::new();
        recorder.0.show_known();
        let _entered = recorder.enter();
        let (tx, mut rx) = broadcast::channel(4);
        tx.send(Sends(tx.clone())).unwrap();
        let names = recorder.names();
        assert!(names.contains(r#"{"1": "sent to Some(1)"}"#), "{names}");
        // The values hold a sender.
        while rx.try_recv().is_ok() {}
    }

    #[test]
    fn a_clone_has_its_text_later() {
        let value = Paid(vec![7]);
        let later = later_text_of(&value).unwrap();
        drop(value);
        assert_eq!(later().as_deref(), Some("Paid([7])"));
        assert!(later_text_of(&Panics).is_none(), "it isn't cloned");
    }
}
