//! Flaky programs of threads, recorded and replayed: each gives again the result that its journal
//! is of, whatever the threads do meanwhile.
//!
//! `YOVANELUM_FREE_RUNS=200 YOVANELUM_REPLAYS=100 cargo test --release --test replay --
//! --nocapture` prints how often each fails.

mod replay {
    pub mod harness;
    pub mod programs;
}
mod support;

use replay::harness::replays;
use replay::programs;
use support::in_time;

/// A test of each program.
macro_rules! tests {
    ($($name:ident)*) => {
        $(#[test]
        fn $name() {
            in_time(|| replays(stringify!($name), programs::$name));
        })*
    };
}

tests! {
    a_subscriber_comes_late
    a_sender_is_dropped_before_the_upgrade
    a_receiver_of_two_senders_lags
    a_setting_is_read_before_it_is_written
    bidders_share_a_sender
    a_closure_that_changes_a_watch_sends_elsewhere
    a_receiver_is_dropped_by_a_panic
    a_worker_waits_for_a_state
    two_threads_make_a_channel_each
    a_choice_of_two_channels_is_cancelled
    the_last_owner_drops_the_sender
}
