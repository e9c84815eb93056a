//! tokio's timers. In a run that is explored they end by the clock of the run, which stands still
//! while tasks are held. Elsewhere they are tokio's own.

use pin_project_lite::pin_project;
use real_tokio::runtime::Handle;
use real_tokio::time as theirs;
use real_tokio::time::{Instant, error::Elapsed};
use std::fmt;
use std::future::{Future, IntoFuture, Pending, pending};
use std::pin::Pin;
use std::task::{Context, Poll, ready};
use std::time::Duration;
use yovanelum::HeldTimer;

/// How long ago a deadline was that has passed for each runtime.
const LONG_AGO: Duration = Duration::from_secs(100 * 24 * 3600);

/// Reads the clock of the runtime. Where a thread ends, tokio's own panics once a test has paused a
/// clock: what it asks for the runtime is gone. There it is the machine's, as outside of a runtime.
pub(crate) fn clock() -> std::time::Instant {
    match Handle::try_current() {
        Err(error) if error.is_thread_local_destroyed() => std::time::Instant::now(),
        _ => Instant::now().into_std(),
    }
}

pin_project! {
    /// tokio's own, or one of a run that is explored.
    #[must_use = "futures do nothing unless you `.await` or poll them"]
    pub struct Sleep {
        #[pin]
        theirs: theirs::Sleep,
        held: Option<HeldTimer>,
    }
}

/// As tokio's own.
#[track_caller]
pub fn sleep(duration: Duration) -> Sleep {
    let theirs = theirs::sleep(duration);
    let held = HeldTimer::after(duration, theirs.deadline().into_std(), clock);
    Sleep { theirs, held }
}

/// As tokio's own.
#[track_caller]
pub fn sleep_until(deadline: Instant) -> Sleep {
    let theirs = theirs::sleep_until(deadline);
    let held = HeldTimer::at(deadline.into_std(), clock);
    Sleep { theirs, held }
}

impl Sleep {
    /// As tokio's own.
    pub fn deadline(&self) -> Instant {
        match &self.held {
            Some(held) => held.deadline().into(),
            None => self.theirs.deadline(),
        }
    }

    /// As tokio's own.
    pub fn is_elapsed(&self) -> bool {
        match &self.held {
            Some(held) => held.is_elapsed(),
            None => self.theirs.is_elapsed(),
        }
    }

    /// As tokio's own.
    pub fn reset(self: Pin<&mut Self>, deadline: Instant) {
        let this = self.project();
        match this.held {
            Some(held) => held.reset(deadline.into_std()),
            None => this.theirs.reset(deadline),
        }
    }
}

impl Future for Sleep {
    type Output = ();

    #[inline]
    fn poll(self: Pin<&mut Self>, context: &mut Context<'_>) -> Poll<()> {
        let mut this = self.project();
        if let Some(held) = this.held {
            if let Some(polled) = held.poll(context) {
                return polled;
            }
            this.theirs.as_mut().reset(held.deadline().into());
            *this.held = None;
        }
        this.theirs.poll(context)
    }
}

impl fmt::Debug for Sleep {
    fn fmt(&self, f: &mut fmt::Formatter<'_>) -> fmt::Result {
        self.theirs.fmt(f)
    }
}

pin_project! {
    /// tokio's own, or one of a run that is explored.
    #[must_use = "futures do nothing unless you `.await` or poll them"]
    pub struct Timeout<T> {
        #[pin]
        of: Of<T>,
    }
}

pin_project! {
    #[project = OfProjected]
    enum Of<T> {
        Theirs {
            #[pin]
            timeout: theirs::Timeout<T>,
        },
        Held {
            #[pin]
            value: T,
            #[pin]
            delay: Sleep,
            #[pin]
            ended: Ended,
        },
    }
}

/// A timeout of tokio's whose deadline has passed. Its error is one that tokio alone can make.
type Ended = theirs::Timeout<Pending<()>>;

/// As tokio's own.
#[track_caller]
pub fn timeout<F: IntoFuture>(duration: Duration, future: F) -> Timeout<F::IntoFuture> {
    if yovanelum::are_timers_held() {
        return Timeout::held(future.into_future(), sleep(duration));
    }
    let timeout = theirs::timeout(duration, future.into_future());
    let of = Of::Theirs { timeout };
    Timeout { of }
}

/// As tokio's own.
#[track_caller]
pub fn timeout_at<F: IntoFuture>(deadline: Instant, future: F) -> Timeout<F::IntoFuture> {
    if yovanelum::are_timers_held() {
        return Timeout::held(future.into_future(), sleep_until(deadline));
    }
    let timeout = theirs::timeout_at(deadline, future.into_future());
    let of = Of::Theirs { timeout };
    Timeout { of }
}

impl<T> Timeout<T> {
    #[track_caller]
    fn held(value: T, delay: Sleep) -> Timeout<T> {
        let of = Of::Held {
            value,
            delay,
            ended: ended(),
        };
        Timeout { of }
    }

    /// As tokio's own.
    pub fn get_ref(&self) -> &T {
        match &self.of {
            Of::Theirs { timeout } => timeout.get_ref(),
            Of::Held { value, .. } => value,
        }
    }

    /// As tokio's own.
    pub fn get_mut(&mut self) -> &mut T {
        match &mut self.of {
            Of::Theirs { timeout } => timeout.get_mut(),
            Of::Held { value, .. } => value,
        }
    }

    /// As tokio's own.
    pub fn into_inner(self) -> T {
        match self.of {
            Of::Theirs { timeout } => timeout.into_inner(),
            Of::Held { value, .. } => value,
        }
    }
}

impl<T: Future> Future for Timeout<T> {
    type Output = Result<T::Output, Elapsed>;

    #[inline]
    fn poll(self: Pin<&mut Self>, context: &mut Context<'_>) -> Poll<Self::Output> {
        match self.project().of.project() {
            OfProjected::Theirs { timeout } => timeout.poll(context),
            OfProjected::Held {
                value,
                delay,
                ended,
            } => {
                if let Poll::Ready(value) = value.poll(context) {
                    return Poll::Ready(Ok(value));
                }
                ready!(delay.poll(context));
                let elapsed = ready!(ended.poll(context));
                Poll::Ready(Err(elapsed.expect_err("a future that is never ready")))
            }
        }
    }
}

impl<T: fmt::Debug> fmt::Debug for Timeout<T> {
    fn fmt(&self, f: &mut fmt::Formatter<'_>) -> fmt::Result {
        match &self.of {
            Of::Theirs { timeout } => timeout.fmt(f),
            Of::Held { value, delay, .. } => f
                .debug_struct("Timeout")
                .field("value", value)
                .field("delay", delay)
                .finish(),
        }
    }
}

/// It is made where the limit is, since a poll may be outside of the runtime. Where the task has no
/// budget left, its poll is pending, and the task is woken again.
#[track_caller]
fn ended() -> Ended {
    let now = Instant::now();
    let past = now.checked_sub(LONG_AGO).unwrap_or(now);
    theirs::timeout_at(past, pending())
}
