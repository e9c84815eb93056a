//! The budget of tasks, by which a call that is always ready gives way to other tasks: tokio's own,
//! where its version offers it, or else that of yovanelum, with which tasks are wrapped.

use std::future::{Future, poll_fn};
use std::panic::Location;
use std::pin::pin;
use std::task::{Context, Poll};

/// Where a call is in the sources.
pub(crate) type Place = &'static Location<'static>;

/// In the place of tokio's `task::coop`, which versions before 1.44 don't have.
mod coop {
    pub(super) struct NotOffered;

    #[allow(dead_code)]
    pub(super) fn has_budget_remaining() -> NotOffered {
        NotOffered
    }

    #[allow(dead_code)]
    pub(super) async fn consume_budget() {}
}

/// What says whether budget is left, if anything does.
trait Left {
    const IS_OFFERED: bool;

    fn is_left(self) -> bool;
}

impl Left for bool {
    const IS_OFFERED: bool = true;

    fn is_left(self) -> bool {
        self
    }
}

impl Left for coop::NotOffered {
    const IS_OFFERED: bool = false;

    fn is_left(self) -> bool {
        true
    }
}

fn is_offered_by<T: Left>(_has_budget_remaining: fn() -> T) -> bool {
    T::IS_OFFERED
}

/// Whether this tokio offers its budget.
#[inline]
pub(crate) fn is_offered() -> bool {
    // A name of the glob is taken before one of this file.
    #[allow(unused_imports)]
    use real_tokio::task::*;
    is_offered_by(coop::has_budget_remaining)
}

fn has_left() -> bool {
    #[allow(unused_imports)]
    use real_tokio::task::*;
    coop::has_budget_remaining().is_left()
}

fn take_one(context: &mut Context<'_>) -> Poll<()> {
    #[allow(unused_imports)]
    use real_tokio::task::*;
    pin!(coop::consume_budget()).poll(context)
}

/// Has yovanelum use tokio's budget, if it is offered.
pub(crate) fn tell() {
    if is_offered() {
        yovanelum::set_budget(has_left, take_one);
    }
}

/// Runs the future of a runtime that blocks on it here in the sources. As in tokio, it has a budget
/// too.
pub(crate) async fn blocked_on<F: Future>(future: F, at: Place) -> F::Output {
    if is_offered() {
        held(future, at).await
    } else {
        yovanelum::budgeted(held(future, at)).await
    }
}

/// Runs a future on which a thread blocks. A replay holds its polls back as those of tasks.
pub(crate) async fn held<F: Future>(future: F, at: Place) -> F::Output {
    // Before the future, so that it is dropped after it.
    let mut blocked = yovanelum::BlockedOn::new();
    let mut future = pin!(future);
    let mut seen = yovanelum::SeenPolls::default();
    let poll = |context: &mut Context<'_>| {
        if yovanelum::is_thread_held(context) {
            Poll::Pending
        } else {
            seen.poll_blocked(context, |context| future.as_mut().poll(context))
        }
    };
    let output = poll_fn(poll).await;
    blocked.returns(&output, at);
    output
}
