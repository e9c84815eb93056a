//! The budget of a task: one that receives from a channel that is never empty gives way to others.

use crate::support::yielding::yield_now;
use std::cell::{Cell, RefCell};
use std::collections::VecDeque;
use std::future::{Future, poll_fn};
use std::panic::{AssertUnwindSafe, catch_unwind};
use std::pin::{Pin, pin};
use std::rc::Rc;
use std::sync::{Arc, Condvar, Mutex};
use std::task::{Context, Poll, Wake, Waker};
use yovanelum::broadcast::error::RecvError;
use yovanelum::{Recorder, block_on, broadcast, named, watch};

/// As in tokio.
const BUDGET: u32 = 128;

/// The numbers of the tasks that are woken, which may be by another thread.
type Woken = Arc<(Mutex<VecDeque<usize>>, Condvar)>;

/// A task's future.
type Task<'a> = Pin<Box<dyn Future<Output = ()> + 'a>>;

struct WakeTask(usize, Woken);

impl Wake for WakeTask {
    fn wake(self: Arc<Self>) {
        let (woken, is_any) = &*self.1;
        let mut woken = woken.lock().unwrap();
        if !woken.contains(&self.0) {
            woken.push_back(self.0);
        }
        is_any.notify_one();
    }
}

/// Runs tasks on this thread, each when it is woken, until all are ready.
fn run<'a>(tasks: impl IntoIterator<Item = Task<'a>>) {
    let mut tasks: Vec<_> = tasks.into_iter().map(Some).collect();
    let all = Mutex::new((0..tasks.len()).collect());
    let woken: Woken = Arc::new((all, Condvar::new()));
    while tasks.iter().any(Option::is_some) {
        let none_is = |woken: &mut VecDeque<usize>| woken.is_empty();
        let queue = woken.1.wait_while(woken.0.lock().unwrap(), none_is);
        let number = queue.unwrap().pop_front().unwrap();
        let waker = Waker::from(Arc::new(WakeTask(number, woken.clone())));
        if let Some(task) = &mut tasks[number] {
            let polled = task.as_mut().poll(&mut Context::from_waker(&waker));
            if polled.is_ready() {
                tasks[number] = None;
            }
        }
    }
}

/// Polls a future once.
fn poll_once<F: Future>(future: F, waker: &Waker) -> Poll<F::Output> {
    pin!(future).poll(&mut Context::from_waker(waker))
}

/// A channel with this many values to receive, which is closed behind them.
fn full(values: u32) -> broadcast::Receiver<u32> {
    let (tx, rx) = broadcast::channel(values as usize);
    for value in 0..values {
        tx.send(value).unwrap();
    }
    rx
}

/// Counts what is received at each turn of another task, while a named task receives all.
fn received_at_turns(receives: impl AsyncFnOnce(&Cell<u32>)) -> Vec<u32> {
    let (count, turns, is_done) = (Cell::new(0), RefCell::new(vec![]), Cell::new(false));
    let task = named("receives", async {
        receives(&count).await;
        is_done.set(true);
    });
    let other = async {
        while !is_done.get() {
            turns.borrow_mut().push(count.get());
            yield_now().await;
        }
    };
    run([Box::pin(task) as Task<'_>, Box::pin(other)]);
    turns.into_inner()
}

fn multiples(count: u32) -> Vec<u32> {
    (1..=count).map(|number| number * BUDGET).collect()
}

#[test]
fn a_task_that_receives_all_gives_way_to_others() {
    let turns = received_at_turns(async |count| {
        let mut rx = full(1000);
        while rx.recv().await.is_ok() {
            count.set(count.get() + 1);
        }
    });
    assert_eq!(turns, multiples(7));
}

#[test]
fn each_call_that_may_wait_counts() {
    let turns = received_at_turns(async |count| {
        let (tx, mut rx) = watch::channel(0);
        for value in 1..=300 {
            tx.send(value).unwrap();
            rx.changed().await.unwrap();
            count.set(count.get() + 1);
        }
    });
    assert_eq!(turns, multiples(2));
    let turns = received_at_turns(async |count| {
        let (_tx, mut rx) = watch::channel(0);
        for _ in 0..300 {
            drop(rx.wait_for(|_| true).await.unwrap());
            count.set(count.get() + 1);
        }
    });
    assert_eq!(turns, multiples(2));
    let turns = received_at_turns(async |count| {
        let tx = broadcast::Sender::<u32>::new(1);
        for _ in 0..300 {
            tx.closed().await;
            count.set(count.get() + 1);
        }
    });
    assert_eq!(turns, multiples(2));
}

#[test]
fn a_task_that_selects_gives_way_though_another_of_its_receivers_is_ready() {
    let turns = received_at_turns(async |count| {
        let (_tx, mut shutdown) = watch::channel(());
        let mut both = [full(500), full(500)];
        loop {
            let closed = poll_fn(|context| {
                assert!(pin!(shutdown.changed()).poll(context).is_pending());
                let [one, other] = &mut both;
                match (
                    pin!(one.recv()).poll(context),
                    pin!(other.recv()).poll(context),
                ) {
                    (Poll::Pending, Poll::Pending) => Poll::Pending,
                    (one, other) => {
                        let is_value = |it: &Poll<Result<_, _>>| matches!(it, Poll::Ready(Ok(_)));
                        let values = [one, other].iter().filter(|it| is_value(it)).count();
                        count.set(count.get() + values as u32);
                        Poll::Ready(values == 0)
                    }
                }
            });
            if closed.await {
                break;
            }
        }
    });
    assert_eq!(turns, multiples(7));
}

#[test]
fn what_is_polled_by_hand_has_no_budget() {
    let mut rx = full(1000);
    for value in 0..1000 {
        assert_eq!(poll_once(rx.recv(), Waker::noop()), Poll::Ready(Ok(value)));
    }
    assert_eq!(
        poll_once(rx.recv(), Waker::noop()),
        Poll::Ready(Err(RecvError::Closed))
    );
}

#[test]
#[cfg_attr(target_family = "wasm", ignore = "WebAssembly ends at the first panic")]
fn a_task_that_panics_leaves_no_budget_behind() {
    let task = named("panics", async { panic!("in a task") });
    let poll = AssertUnwindSafe(|| poll_once(task, Waker::noop()));
    assert!(catch_unwind(poll).is_err());
    let mut rx = full(1000);
    let receives = |value| poll_once(rx.recv(), Waker::noop()) == Poll::Ready(Ok(value));
    assert!((0..1000).all(receives));
}

#[test]
fn a_thread_that_is_blocked_on_a_future_has_no_budget() {
    let polls = Rc::new(Cell::new(0));
    let counted = |receives: Pin<Box<dyn Future<Output = u32>>>| {
        let (polls, mut receives) = (polls.clone(), receives);
        poll_fn(move |context| {
            polls.set(polls.get() + 1);
            receives.as_mut().poll(context)
        })
    };
    let receives = async {
        let (mut rx, mut count) = (full(1000), 0);
        while rx.recv().await.is_ok() {
            count += 1;
        }
        count
    };
    let named_receives = named("receives", receives);
    assert_eq!(block_on(counted(Box::pin(named_receives))), 1000);
    assert_eq!(polls.get(), 1);
    // Within a task, whose own budget is as it was.
    let turns = received_at_turns(async |count| {
        let mut rx = full(300);
        while let Ok(value) = rx.recv().await {
            if value % 100 == 7 {
                let mut inner = full(500);
                assert_eq!(block_on(async { while inner.recv().await.is_ok() {} }), ());
                assert!(full(1).blocking_recv().is_ok());
            }
            count.set(count.get() + 1);
        }
    });
    assert_eq!(turns, multiples(2));
}

#[test]
fn a_task_within_a_task_has_its_budget() {
    let turns = received_at_turns(async |count| {
        let mut rx = full(300);
        while named("one", rx.recv()).await.is_ok() {
            count.set(count.get() + 1);
        }
    });
    assert_eq!(turns, multiples(2));
}

/// Runs a named task that receives 300 orders, and one that sends two more, which has a name or
/// hasn't.
fn mails_and_sends(is_named: bool, run: impl FnOnce([Task<'_>; 2])) {
    let (orders, mut mailer) = broadcast::channel(1024);
    for order in 0..300 {
        orders.send(order).unwrap();
    }
    let mails = named("mails", async {
        for _ in 0..300 {
            mailer.recv().await.unwrap();
        }
    });
    let sends = async {
        for order in [300, 301] {
            orders.send(order).unwrap();
            yield_now().await;
        }
    };
    let sends: Task<'_> = if is_named {
        Box::pin(named("sends", sends))
    } else {
        Box::pin(sends)
    };
    run([Box::pin(mails), sends]);
}

/// Records a run, and replays it by tasks of this thread. Returns how many receives were before
/// each of the last two sends.
fn recorded_and_replayed(is_named: bool, run_recorded: impl FnOnce([Task<'_>; 2])) -> [usize; 2] {
    let recorder = Recorder::new();
    let entered = recorder.enter();
    mails_and_sends(is_named, run_recorded);
    drop(entered);
    let path = crate::support::temporary::path(&format!("budget-{is_named}.journal"));
    recorder.save(&path).unwrap();
    let replay = Recorder::replay(&path).unwrap();
    std::fs::remove_file(&path).unwrap();
    std::fs::remove_file(path.with_extension("names")).unwrap();
    let entered = replay.enter();
    mails_and_sends(is_named, |tasks| run(tasks));
    drop(entered);
    let how = replay.replayed().unwrap();
    assert!(how.is_in_order(), "{how}");
    assert_eq!(replay.journal().unwrap(), recorder.journal().unwrap());
    let journal = recorder.journal().unwrap();
    let received = |line: &&str| line.contains(" recv 1 = value ");
    let before = |send| {
        let (before, _) = journal.split_once(send).unwrap();
        before.lines().filter(received).count()
    };
    [" send 0 300 =", " send 0 301 ="].map(before)
}

#[test]
#[cfg_attr(target_family = "wasm", ignore = "WebAssembly has no threads")]
fn a_run_in_which_a_task_gave_way_is_replayed() {
    assert_eq!(recorded_and_replayed(true, |tasks| run(tasks)), [128, 256]);
}

#[test]
#[cfg_attr(target_family = "wasm", ignore = "WebAssembly has no threads")]
fn a_run_in_which_no_task_gave_way_is_replayed() {
    // If the replay had a budget, the second task would block this thread, and the first couldn't
    // go on.
    let in_turn = |tasks: [Task<'_>; 2]| tasks.into_iter().for_each(block_on);
    assert_eq!(recorded_and_replayed(false, in_turn), [300, 300]);
}
