//! Which types may be sent to other threads, shared by them, moved while pinned, and used after a
//! panic: those that tokio's may.

use std::cell::{Cell, RefCell};
use std::panic::{RefUnwindSafe, UnwindSafe};
use yovanelum::{
    ChannelSnapshot, Close, Entered, ForTest, Lag, Polled, ReceiverSnapshot, Recorder, SaveOnPanic,
    Snapshot, Waiting, broadcast, watch,
};

/// A value that may be sent and not shared.
type Unshared = Cell<u8>;

fn is_sent<T: Send>() {}
fn is_shared<T: Sync>() {}
fn is_moved<T: Unpin>() {}
fn is_used_after_a_panic<T: UnwindSafe + RefUnwindSafe>() {}

/// Does not compile if the type implements the trait: then it is not known which `check` is meant.
macro_rules! is_not {
    ($type:ty: $trait:ident) => {{
        trait Check<Which> {
            fn check() {}
        }
        impl<T: ?Sized> Check<()> for T {}
        struct Implements;
        impl<T: ?Sized + $trait> Check<Implements> for T {}
        <$type as Check<_>>::check();
    }};
}

#[test]
fn handles_are_sent_and_shared_as_tokio_s_are() {
    // A broadcast's values are cloned under its lock, so they need not be shared.
    is_sent::<broadcast::Sender<Unshared>>();
    is_shared::<broadcast::Sender<Unshared>>();
    is_sent::<broadcast::Receiver<Unshared>>();
    is_shared::<broadcast::Receiver<Unshared>>();
    is_sent::<broadcast::WeakSender<Unshared>>();
    is_shared::<broadcast::WeakSender<Unshared>>();
    // Receivers of a watch look at one value from several threads.
    is_sent::<watch::Sender<u8>>();
    is_shared::<watch::Sender<u8>>();
    is_sent::<watch::Receiver<u8>>();
    is_shared::<watch::Receiver<u8>>();
    is_not!(watch::Receiver<Unshared>: Send);
    is_not!(watch::Receiver<Unshared>: Sync);
    is_not!(broadcast::Sender<std::rc::Rc<u8>>: Send);
    is_sent::<Polled<broadcast::Receiver<Unshared>>>();
    is_shared::<Polled<watch::Receiver<u8>>>();
}

#[test]
fn a_reference_stays_on_its_thread() {
    is_not!(watch::Ref<'static, u8>: Send);
    is_shared::<watch::Ref<'static, u8>>();
}

#[test]
fn handles_are_moved_and_used_after_a_panic() {
    is_moved::<broadcast::Sender<std::marker::PhantomPinned>>();
    is_moved::<broadcast::Receiver<std::marker::PhantomPinned>>();
    is_moved::<watch::Sender<std::marker::PhantomPinned>>();
    is_moved::<watch::Receiver<std::marker::PhantomPinned>>();
    is_used_after_a_panic::<broadcast::Sender<RefCell<u8>>>();
    is_used_after_a_panic::<broadcast::Receiver<RefCell<u8>>>();
    is_used_after_a_panic::<watch::Sender<u8>>();
    is_used_after_a_panic::<watch::Receiver<u8>>();
}

#[test]
fn a_recorder_is_sent_and_shared_and_its_guards_are_not() {
    is_sent::<Recorder>();
    is_shared::<Recorder>();
    is_sent::<SaveOnPanic>();
    is_sent::<Waiting>();
    is_shared::<Waiting>();
    is_not!(Entered: Send);
    is_not!(ForTest: Send);
}

#[test]
fn events_and_snapshots_are_sent_and_shared() {
    is_sent::<Lag>();
    is_shared::<Lag>();
    is_sent::<Close>();
    is_shared::<Close>();
    is_sent::<Snapshot>();
    is_shared::<Snapshot>();
    is_sent::<ChannelSnapshot>();
    is_shared::<ChannelSnapshot>();
    is_sent::<ReceiverSnapshot>();
    is_shared::<ReceiverSnapshot>();
}
