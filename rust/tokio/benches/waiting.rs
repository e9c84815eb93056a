//! Nanoseconds to wait, to be polled again, to be cancelled and to be woken, where many wait,
//! beside tokio: `cargo bench -- WAITERS REPEATS`.

use std::future::Future;
use std::pin::Pin;
use std::sync::Arc;
use std::task::{Context, Wake, Waker};
use std::time::Instant;

struct Nobody;

impl Wake for Nobody {
    fn wake(self: Arc<Self>) {}
}

fn waker() -> Waker {
    Arc::new(Nobody).into()
}

type Waiting<'a, R> = Pin<Box<dyn Future<Output = R> + 'a>>;

/// Nanoseconds that `run` takes for each of `count` items.
fn each(count: usize, run: impl FnOnce()) -> f64 {
    let start = Instant::now();
    run();
    start.elapsed().as_nanos() as f64 / count as f64
}

fn poll_each<R>(futures: &mut [Waiting<'_, R>], waker: &Waker) {
    for future in futures {
        assert!(
            future
                .as_mut()
                .poll(&mut Context::from_waker(waker))
                .is_pending()
        );
    }
}

/// Waiting, being polled again with another waker, being cancelled from the first on, and the same
/// of every second future.
fn cancelled<R>(mut futures: Vec<Waiting<'_, R>>) -> Vec<f64> {
    let (count, first, second) = (futures.len(), waker(), waker());
    let waits = each(count, || poll_each(&mut futures, &first));
    let again = each(count, || poll_each(&mut futures, &second));
    let mut parts = (Vec::new(), Vec::new());
    for (index, future) in futures.into_iter().enumerate() {
        match index % 2 {
            0 => parts.0.push(future),
            _ => parts.1.push(future),
        }
    }
    let every_second = each(parts.1.len(), || drop(parts.1));
    let rest = each(parts.0.len(), || drop(parts.0));
    vec![waits, again, every_second, rest]
}

/// Being woken.
fn woken<R>(mut futures: Vec<Waiting<'_, R>>, wake: impl FnOnce()) -> f64 {
    let count = futures.len();
    poll_each(&mut futures, &waker());
    each(count, wake)
}

macro_rules! cases {
    ($name:ident, $module:path) => {
        fn $name(waiters: usize) -> Vec<f64> {
            use $module::{broadcast, watch};
            let (tx, rx) = broadcast::channel::<u64>(16);
            let mut all: Vec<_> = (0..waiters).map(|_| rx.resubscribe()).collect();
            let mut times = cancelled(all.iter_mut().map(|rx| Box::pin(rx.recv()) as _).collect());
            let futures = all.iter_mut().map(|rx| Box::pin(rx.recv()) as _).collect();
            times.push(woken::<Result<_, _>>(futures, || drop(tx.send(1))));
            let (tx, rx) = watch::channel(0);
            let mut all = vec![rx; waiters];
            times.extend(cancelled(
                all.iter_mut()
                    .map(|rx| Box::pin(rx.changed()) as _)
                    .collect(),
            ));
            let futures = all
                .iter_mut()
                .map(|rx| Box::pin(rx.changed()) as _)
                .collect();
            times.push(woken::<Result<_, _>>(futures, || drop(tx.send(1))));
            times
        }
    };
}

cases!(of_tokio, tokio::sync);
cases!(of_this, yovanelum);

const NAMES: [&str; 5] = [
    "wait",
    "polled again",
    "every second cancelled",
    "the rest cancelled",
    "woken",
];

fn main() {
    let numbers: Vec<usize> = std::env::args()
        .filter_map(|word| word.parse().ok())
        .collect();
    let waiters = numbers.first().copied().unwrap_or(16_000);
    let repeats = numbers.get(1).copied().unwrap_or(7);
    // In turn, so that both have the same share of what else the machine does.
    let runs: Vec<_> = (0..repeats)
        .map(|_| (of_this(waiters), of_tokio(waiters)))
        .collect();
    let least = |of: &dyn Fn(&(Vec<f64>, Vec<f64>)) -> f64| {
        runs.iter().map(of).fold(f64::INFINITY, f64::min)
    };
    println!(
        "{:34} {:>9} {:>9}",
        format!("{waiters} futures, least ns each"),
        "here",
        "tokio"
    );
    for case in 0..2 * NAMES.len() {
        let channel = ["broadcast", "watch"][case / NAMES.len()];
        let name = format!("{channel}, {}", NAMES[case % NAMES.len()]);
        let (here, tokio) = (least(&|run| run.0[case]), least(&|run| run.1[case]));
        println!("{name:34} {here:>9.1} {tokio:>9.1}");
    }
}
