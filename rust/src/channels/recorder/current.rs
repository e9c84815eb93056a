//! The recorder that a new channel belongs to: the one that is entered on its thread, else the one
//! that is installed, else none.

use super::Recorder;
use super::automatic::TestThread;
use super::noted_panic::PATIENCE;
use crate::channels::lock::{lock, try_lock_for};
use std::cell::RefCell;
use std::marker::PhantomData;
use std::sync::atomic::{AtomicBool, Ordering};
use std::sync::{Arc, Mutex, OnceLock};

/// Whether a recorder was entered or installed in this process.
static IS_ANY: AtomicBool = AtomicBool::new(false);

static INSTALLED: Stack = Stack {
    followed: None,
    entries: Mutex::new(Vec::new()),
    test: OnceLock::new(),
};

thread_local! {
    static ENTERED: RefCell<OfThread> = RefCell::default();
}

/// The recorders that are entered on a thread, until it ends.
#[derive(Default)]
struct OfThread(Arc<Stack>);

impl Drop for OfThread {
    fn drop(&mut self) {
        // Threads that follow this one may live on, and the test doesn't.
        if let Some(Some(test)) = self.0.test.get() {
            test.end();
        }
    }
}

/// The recorders that are entered on a thread, or installed for the process. The last one is used.
#[derive(Default)]
pub(super) struct Stack {
    // That of the thread which this one follows. It is used where this one is empty.
    followed: Option<Arc<Stack>>,
    // Each recorder with the number of its guard. The numbers rise.
    entries: Mutex<Vec<(u64, Recorder)>>,
    // The test that the thread runs, where tests get recorders by themselves. It is looked for
    // once.
    pub(super) test: OnceLock<Option<TestThread>>,
}

impl Stack {
    /// What the thread has that runs this test.
    pub(super) fn of_test(test: TestThread) -> Stack {
        let stack = Stack::default();
        let _ = stack.test.set(Some(test));
        stack
    }

    /// Returns the number of the new entry.
    pub(super) fn push(&self, recorder: &Recorder) -> u64 {
        IS_ANY.store(true, Ordering::Relaxed);
        let mut entries = lock(&self.entries);
        let number = entries.last().map_or(0, |(last, _)| last + 1);
        entries.push((number, recorder.clone()));
        number
    }

    fn remove(&self, number: u64) {
        let mut entries = lock(&self.entries);
        let index = entries.iter().position(|(other, _)| *other == number);
        let removed = index.map(|index| entries.remove(index));
        drop(entries);
        // This may drop the recorder, and with it wakers, which may run user code. So nothing is
        // locked here.
        drop(removed);
    }

    pub(super) fn last(&self) -> Option<Recorder> {
        let last = lock(&self.entries).last().map(|(_, last)| last.clone());
        last.or_else(|| self.followed.as_ref()?.last())
    }

    /// Returns that of the thread which this one follows, and which follows none.
    pub(super) fn first(self: &Arc<Stack>) -> Arc<Stack> {
        let mut first = self;
        while let Some(followed) = &first.followed {
            first = followed;
        }
        first.clone()
    }

    /// Whether the recorder with this number is one of these.
    fn has(&self, id: u64) -> bool {
        let entries = try_lock_for(&self.entries, PATIENCE);
        let is_here = entries.is_some_and(|all| all.iter().any(|(_, it)| it.0.id == id));
        is_here
            || self
                .followed
                .as_ref()
                .is_some_and(|followed| followed.has(id))
    }
}

/// Has tasks be seen as where a recorder was entered: one may be, once they are spawned.
pub(super) fn expect_any() {
    IS_ANY.store(true, Ordering::Relaxed);
}

/// Whether a recorder was entered or installed in this process.
#[inline]
pub(crate) fn is_any_entered() -> bool {
    IS_ANY.load(Ordering::Relaxed)
}

/// Returns the number of the recorder that a new channel of this thread would belong to, and the
/// thread that has created it.
pub(crate) fn current_and_home() -> Option<(u64, usize)> {
    let current = Recorder::current_or_begun(None).filter(|recorder| !recorder.0.is_off)?;
    Some((current.0.id, current.0.home()))
}

/// Whether the recorder with this number is entered on this thread, or installed. It is called
/// where a thread panics.
pub(crate) fn is_entered(id: u64) -> bool {
    let entered = ENTERED.try_with(|entered| entered.try_borrow().ok().map(|it| it.0.clone()));
    let is_here = entered.ok().flatten().is_some_and(|stack| stack.has(id));
    is_here || INSTALLED.has(id)
}

/// Returns the recorders that are entered on this thread. At the end of a thread, they may be gone:
/// then nothing is entered.
pub(super) fn of_this_thread() -> Arc<Stack> {
    let stack = ENTERED.try_with(|entered| entered.borrow().0.clone());
    stack.unwrap_or_default()
}

/// Has this thread have these recorders, unless it has some. Returns whether it does.
pub(super) fn replace_of_this_thread(stack: &Arc<Stack>) -> bool {
    let replace = |entered: &RefCell<OfThread>| {
        let OfThread(own) = &mut *entered.borrow_mut();
        let has_none = lock(&own.entries).is_empty() && own.followed.is_none();
        has_none.then(|| *own = stack.clone()).is_some()
    };
    ENTERED.try_with(replace).unwrap_or(false)
}

impl Recorder {
    /// Returns the recorder that a channel would belong to if this thread created it now, or `None`
    /// if it would not be recorded.
    ///
    /// This is the recorder that is entered on this thread ([`enter`](Recorder::enter),
    /// [`for_test`](Recorder::for_test), [`scope`](Recorder::scope)), or else the one that is
    /// installed for the process ([`install`](Recorder::install)).
    ///
    /// # Examples
    ///
    /// A task that belongs to the same test as the code that spawns it:
    ///
    /// ```
    /// use std::thread;
    /// use yovanelum::{Recorder, block_on, broadcast};
    ///
    /// let recorder = Recorder::for_test("a_price_is_sent");
    /// let task = async { drop(broadcast::channel::<u32>(4)) };
    /// let task = Recorder::current().expect("entered by `for_test`").scope(task);
    /// thread::spawn(move || block_on(task)).join().unwrap();
    /// // The drops of the sender and of the receiver.
    /// assert_eq!(recorder.len(), 2);
    /// ```
    pub fn current() -> Option<Recorder> {
        Recorder::current_or_off().filter(|recorder| !recorder.0.is_off)
    }

    /// Returns the current recorder, also if it is off.
    pub(crate) fn current_or_off() -> Option<Recorder> {
        if !is_any_entered() {
            return None;
        }
        of_this_thread().last().or_else(|| INSTALLED.last())
    }

    /// Enters the recorder on this thread: channels that the thread creates belong to it until the
    /// returned guard is dropped.
    ///
    /// If several recorders are entered, the one that was entered last is used. Channels that were
    /// created before are not affected. Other threads are not affected either, not even those that
    /// this thread spawns: see [`on_thread_start`](Recorder::on_thread_start).
    ///
    /// # Examples
    ///
    /// ```
    /// use yovanelum::{Recorder, broadcast};
    ///
    /// let recorder = Recorder::new();
    /// let entered = recorder.enter();
    /// let orders = broadcast::Sender::<u32>::new(4);
    /// drop(entered);
    /// let refunds = broadcast::Sender::<u32>::new(4);
    ///
    /// let calls = recorder.len();
    /// assert_eq!(refunds.receiver_count(), 0);
    /// assert_eq!(recorder.len(), calls);
    /// assert_eq!(orders.receiver_count(), 0);
    /// assert_eq!(recorder.len(), calls + 1);
    /// ```
    #[must_use = "dropped at once, it changes nothing"]
    pub fn enter(&self) -> Entered {
        let stack = of_this_thread();
        Entered {
            number: stack.push(self),
            stack,
            _not_send: PhantomData,
        }
    }

    /// Installs the recorder for the process, until the returned guard is dropped: channels that
    /// any thread creates belong to it, unless a recorder is entered on that thread.
    ///
    /// If several recorders are installed, the one that was installed last is used. So two tests
    /// that run side by side in one process must not both install theirs:
    /// [`scope`](Recorder::scope) and [`on_thread_start`](Recorder::on_thread_start) keep the
    /// channels of such tests apart.
    ///
    /// # Examples
    ///
    /// ```
    /// use std::thread;
    /// use yovanelum::{Recorder, broadcast};
    ///
    /// let recorder = Recorder::new();
    /// let installed = recorder.install();
    /// let service = thread::spawn(|| {
    ///     let (bus, _listener) = broadcast::channel(4);
    ///     bus.send("started").unwrap();
    /// });
    /// service.join().unwrap();
    /// assert!(recorder.journal().unwrap().contains("send 0 0 = sent 1"));
    /// drop(installed);
    /// assert!(Recorder::current().is_none());
    /// ```
    #[must_use = "dropped at once, it changes nothing"]
    pub fn install(&self) -> Installed {
        Installed {
            number: INSTALLED.push(self),
        }
    }

    /// Returns a function that enters the recorder on the thread that calls it, until that thread
    /// ends.
    ///
    /// It is for the builder of a runtime: with it, what the tasks of that runtime create belongs
    /// to this recorder, whichever of its threads they run on, and nothing else does. So several
    /// tests in one process can have a runtime with many threads each. The thread that calls the
    /// runtime's `block_on` is none of these. There [`for_test`](Recorder::for_test) or
    /// [`enter`](Recorder::enter) enters the recorder.
    ///
    /// # Examples
    ///
    /// With tokio, instead of `#[tokio::test(flavor = "multi_thread")]`:
    ///
    /// ```ignore
    /// #[test]
    /// fn each_order_is_audited() {
    ///     let recorder = Recorder::for_test("each_order_is_audited");
    ///     let runtime = tokio::runtime::Builder::new_multi_thread()
    ///         .enable_all()
    ///         .on_thread_start(recorder.on_thread_start())
    ///         .build()
    ///         .unwrap();
    ///     runtime.block_on(async { /* the test */ });
    /// }
    /// ```
    ///
    /// With threads:
    ///
    /// ```
    /// use std::thread;
    /// use yovanelum::{Recorder, broadcast};
    ///
    /// let recorder = Recorder::new();
    /// let on_start = recorder.on_thread_start();
    /// let service = thread::spawn(move || {
    ///     on_start();
    ///     drop(broadcast::channel::<u32>(4));
    /// });
    /// service.join().unwrap();
    /// assert_eq!(recorder.len(), 2);
    /// ```
    #[must_use = "the function is for the start of a thread"]
    pub fn on_thread_start(&self) -> impl Fn() + Clone + Send + Sync + 'static + use<> {
        let recorder = self.clone();
        move || {
            of_this_thread().push(&recorder);
        }
    }
}

/// Returns a function by which other threads follow this one: a recorder that is entered here is
/// then entered there too, whether it was entered before or is entered later, and until it is left
/// here.
///
/// This is [`Recorder::on_thread_start`] for code that builds a runtime before there is a recorder.
/// A thread that has entered a recorder of its own uses that one. A thread follows one other thread
/// at a time, and leaves what it has entered itself where it begins to follow.
///
/// # Examples
///
/// ```
/// use std::sync::mpsc;
/// use std::thread;
/// use yovanelum::{Recorder, broadcast, follow_this_thread};
///
/// let follow = follow_this_thread();
/// let (jobs, todo) = mpsc::channel::<fn()>();
/// let worker = thread::spawn(move || {
///     follow();
///     todo.into_iter().for_each(|job| job());
/// });
/// let recorder = Recorder::for_test("the_worker_is_recorded");
/// jobs.send(|| drop(broadcast::channel::<u32>(4))).unwrap();
/// drop(jobs);
/// worker.join().unwrap();
/// assert_eq!(recorder.len(), 2);
/// ```
#[must_use = "the function is for other threads"]
pub fn follow_this_thread() -> impl Fn() + Clone + Send + Sync + 'static {
    let followed = of_this_thread();
    move || {
        let stack = Stack {
            followed: Some(followed.clone()),
            ..Stack::default()
        };
        // At the end of a thread there is nothing to follow for.
        let before = ENTERED.try_with(|entered| entered.replace(OfThread(Arc::new(stack))));
        drop(before);
    }
}

/// Guard returned by [`Recorder::enter`], which enters the recorder on this thread until it is
/// dropped.
///
/// Guards may be dropped in any order. Of the recorders whose guards are alive, the one that was
/// entered last gets the channels. A guard cannot be sent to another thread, since other tasks may
/// run on this one while it is held. For a future, use [`Recorder::scope`].
///
/// # Examples
///
/// ```
/// use yovanelum::{Entered, Recorder, broadcast};
///
/// let (all, orders_only) = (Recorder::new(), Recorder::new());
/// let _all: Entered = all.enter();
/// let entered: Entered = orders_only.enter();
/// let (orders, _mailer) = broadcast::channel(4);
/// drop(entered);
/// let (refunds, _clerk) = broadcast::channel(4);
/// orders.send(7).unwrap();
/// refunds.send(8).unwrap();
/// refunds.send(9).unwrap();
/// assert_eq!((orders_only.len(), all.len()), (1, 2));
/// ```
pub struct Entered {
    number: u64,
    // Of the thread that has entered the recorder. So a guard that is dropped at the end of its
    // thread needs no variable of the thread.
    stack: Arc<Stack>,
    // A raw pointer is not `Send`, so a guard stays on its thread.
    _not_send: PhantomData<*const ()>,
}

impl Drop for Entered {
    fn drop(&mut self) {
        self.stack.remove(self.number);
    }
}

impl std::fmt::Debug for Entered {
    fn fmt(&self, f: &mut std::fmt::Formatter<'_>) -> std::fmt::Result {
        f.debug_struct("Entered").finish_non_exhaustive()
    }
}

/// Guard returned by [`Recorder::install`], which installs the recorder for the process until it is
/// dropped.
///
/// Guards may be dropped in any order, and on any thread. Of the recorders whose guards are alive,
/// the one that was installed last gets the channels.
///
/// # Examples
///
/// ```
/// use yovanelum::{Installed, Recorder};
///
/// let installed: Installed = Recorder::new().install();
/// assert!(Recorder::current().is_some());
/// drop(installed);
/// assert!(Recorder::current().is_none());
/// ```
#[derive(Debug)]
pub struct Installed {
    number: u64,
}

impl Drop for Installed {
    fn drop(&mut self) {
        INSTALLED.remove(self.number);
    }
}
