//! The threads of a process, and whether they all sleep. Linux says so itself. Elsewhere, they are
//! taken to sleep when nothing has moved for a while.

use super::random::hashed;
use super::system_call::{self, Doing, Timer};
use std::cell::OnceCell;
use std::fs::{self, File};
use std::path::{Path, PathBuf};
use std::process;
use std::time::Duration;
use yovanelum_record::listed::{Keep, PushAll};

/// How long nothing has moved where all are taken to sleep by a clock.
const STILL: Duration = Duration::from_millis(1);

/// How far away a timer is at most that is waited for.
pub(super) const SOON: Duration = Duration::from_millis(50);

/// By how much runtimes round the time up until which they sleep.
const ROUNDING: Duration = Duration::from_millis(2);

/// What the names of this crate's own threads begin with. They are no part of the test.
pub(super) const OURS: &[u8] = b"yovanelum-";

/// The number that the system has for a thread.
pub(crate) type ThreadId = u32;

/// Returns the number of the current thread.
pub(crate) fn this_thread() -> ThreadId {
    thread_local! {
        static THIS: OnceCell<ThreadId> = const { OnceCell::new() };
    }
    let read = || {
        let path = fs::read_link("/proc/thread-self").ok()?;
        path.file_name()?.to_str()?.parse().ok()
    };
    let number =
        || read().unwrap_or_else(|| crate::channels::reentrant::thread_number() as ThreadId);
    // At the end of a thread, nothing asks for its number but a call that then stands.
    THIS.try_with(|this| *this.get_or_init(number))
        .unwrap_or_else(|_| number())
}

/// A thread that sleeps.
#[derive(Clone, Copy, Debug, PartialEq, Eq)]
pub(crate) struct Sleeper {
    pub(crate) thread: ThreadId,
    /// A hash of where it sleeps. It is another one when it has slept elsewhere in between.
    place: u64,
    timer: Option<Timer>,
    /// Whether it is the harness's, and not of the test.
    is_of_others: bool,
}

/// What is asked of a thread.
#[derive(Clone, Copy, PartialEq, Eq)]
pub(crate) enum Asked {
    /// Nothing: it isn't looked at.
    Nothing,
    /// It may run, since it does nothing but look whether it may go on.
    MayRun,
    /// Whether it sleeps.
    Sleeps,
}

/// The threads of a process, as the system lists them.
pub(crate) struct Threads {
    folder: PathBuf,
    // Whether the system says what a thread does.
    is_told: bool,
    threads: Vec<Thread>,
    link_count: u64,
    // The thread of the harness.
    harness: Option<ThreadId>,
}

struct Thread {
    number: ThreadId,
    folder: PathBuf,
    call: File,
    times: Option<File>,
    is_ours: bool,
    is_of_others: bool,
    /// How long it had run when it was seen first since this move.
    ran: Option<(u64, u64)>,
}

impl Threads {
    /// The threads of this process. Where the current one isn't the first, that is the harness, for
    /// whose time nobody waits.
    pub(super) fn of_this_process() -> Threads {
        let mut threads = Threads::of(Path::new("/proc/self"));
        threads.harness = Some(process::id()).filter(|first| *first != this_thread());
        threads
    }

    /// The threads of the process with this folder.
    pub(crate) fn of(folder: &Path) -> Threads {
        let line = fs::read_to_string(folder.join("syscall"));
        Threads {
            folder: folder.join("task"),
            is_told: system_call::is_known() && line.is_ok_and(|line| !line.is_empty()),
            threads: Vec::new(),
            link_count: 0,
            harness: None,
        }
    }

    /// Whether all are taken to sleep by a clock.
    pub(crate) fn is_by_clock(&self) -> bool {
        !self.is_told
    }

    /// Returns where the threads sleep that are looked at, or `None` if one of them runs that may
    /// not, or if a thread has ended since the last look. Nothing has moved for this time.
    pub(crate) fn sleepers(
        &mut self,
        still: Duration,
        asked: &dyn Fn(ThreadId) -> Asked,
    ) -> Option<Vec<Sleeper>> {
        if !self.is_told {
            return (still >= STILL).then(Vec::new);
        }
        self.list();
        let mut sleepers = Vec::with_capacity(self.threads.len());
        for thread in &mut self.threads {
            let asked = asked(thread.number);
            let is_left_out = thread.is_ours || asked == Asked::Nothing;
            match thread.sleeper() {
                // Another may have begun since, so that there are as many as before.
                None => {
                    self.link_count = 0;
                    return None;
                }
                _ if is_left_out => (),
                // A thread has its name when it has begun to run, and may have been listed before.
                Some(Some(sleeper)) if sleeper.is_timed() && is_ours(&thread.folder) => {
                    thread.is_ours = true;
                }
                Some(Some(sleeper)) => sleepers.push(sleeper),
                Some(None) if asked == Asked::MayRun => (),
                Some(None) => return None,
            }
        }
        Some(sleepers)
    }

    /// Lists the threads again if there are others than before.
    fn list(&mut self) {
        let Some(link_count) = link_count(&self.folder) else {
            return;
        };
        if link_count == self.link_count {
            return;
        }
        self.link_count = link_count;
        let mut numbers: Vec<ThreadId> = vec![];
        if let Ok(entries) = fs::read_dir(&self.folder) {
            let names = entries.flatten().map(|entry| entry.file_name());
            numbers.push_all(names.filter_map(|name| name.to_str()?.parse().ok()));
        }
        self.threads.keep(|thread| numbers.contains(&thread.number));
        for number in numbers {
            if !self.threads.iter().any(|thread| thread.number == number) {
                let is_of_others = self.harness == Some(number);
                let folder = self.folder.join(number.to_string());
                self.threads
                    .push_all(Thread::open(number, &folder, is_of_others));
            }
        }
    }

    /// Returns how long a thread has run since this move at most, in time of a processor, as far as
    /// it was looked at. One that only waits for a processor doesn't run.
    pub(super) fn longest_run(
        &mut self,
        at_move: u64,
        is_left_out: impl Fn(ThreadId) -> bool,
    ) -> Duration {
        self.list();
        let mut longest = 0;
        let mut has_ended = false;
        for thread in &mut self.threads {
            let Some(run) = thread.nanoseconds_run() else {
                has_ended |= thread.times.is_some();
                continue;
            };
            if thread.is_ours || is_left_out(thread.number) {
                continue;
            }
            match thread.ran {
                Some((before, from)) if before == at_move => {
                    longest = longest.max(run.saturating_sub(from));
                }
                _ => thread.ran = Some((at_move, run)),
            }
        }
        if has_ended {
            self.link_count = 0;
        }
        Duration::from_nanos(longest)
    }
}

impl Thread {
    fn open(number: ThreadId, folder: &Path, is_of_others: bool) -> Option<Thread> {
        Some(Thread {
            number,
            folder: folder.to_path_buf(),
            call: File::open(folder.join("syscall")).ok()?,
            times: File::open(folder.join("schedstat")).ok(),
            is_ours: is_ours(folder),
            is_of_others,
            ran: None,
        })
    }

    /// Returns `None` if it has ended, and `Some(None)` if it runs.
    fn sleeper(&self) -> Option<Option<Sleeper>> {
        let mut buffer = [0; 256];
        let line = read_at_start(&self.call, &mut buffer)?;
        let timer = match system_call::doing(line) {
            Doing::Runs => return Some(None),
            Doing::Waits => None,
            Doing::WaitsForTime(timer) => Some(timer),
        };
        Some(Some(Sleeper {
            thread: self.number,
            place: hashed(0, line),
            timer,
            is_of_others: self.is_of_others,
        }))
    }

    fn nanoseconds_run(&self) -> Option<u64> {
        let mut buffer = [0; 64];
        let line = read_at_start(self.times.as_ref()?, &mut buffer)?;
        line.split_ascii_whitespace().next()?.parse().ok()
    }
}

impl Sleeper {
    /// Whether it sleeps until a time.
    pub(crate) fn is_timed(&self) -> bool {
        self.timer.is_some() && !self.is_of_others
    }

    /// Whether its time comes soon, as far as that is known. It is one of this process.
    pub(super) fn is_soon(&self) -> bool {
        let left = match self.timer {
            _ if self.is_of_others => return false,
            None => return false,
            Some(Timer::Milliseconds(count)) => Some(Duration::from_millis(count)),
            Some(Timer::At {
                address,
                is_of_clock,
            }) => time_at(address).map(|time| {
                if is_of_clock {
                    time.saturating_sub(uptime().unwrap_or(time))
                } else {
                    time
                }
            }),
        };
        left.is_none_or(|left| left <= SOON + ROUNDING)
    }
}

/// Whether the thread with this folder is one of this crate.
fn is_ours(folder: &Path) -> bool {
    let name = fs::read(folder.join("comm"));
    name.is_ok_and(|name| name.starts_with(OURS))
}

/// Returns how many links the folder of threads has, which is another number when there is another
/// thread.
fn link_count(folder: &Path) -> Option<u64> {
    #[cfg(unix)]
    {
        use std::os::unix::fs::MetadataExt;
        fs::metadata(folder).ok().map(|folder| folder.nlink())
    }
    #[cfg(not(unix))]
    {
        let _ = folder;
        None
    }
}

fn read_at_start<'a>(file: &File, buffer: &'a mut [u8]) -> Option<&'a str> {
    #[cfg(unix)]
    {
        use std::os::unix::fs::FileExt;
        let count = file.read_at(buffer, 0).ok()?;
        std::str::from_utf8(&buffer[..count]).ok()
    }
    #[cfg(not(unix))]
    {
        let _ = (file, buffer);
        None
    }
}

/// Returns the time that stands at this address of this process, which may be one that is no longer
/// there.
fn time_at(address: u64) -> Option<Duration> {
    #[cfg(unix)]
    {
        use std::os::unix::fs::FileExt;
        let mut bytes = [0; 16];
        let memory = File::open("/proc/self/mem").ok()?;
        memory.read_exact_at(&mut bytes, address).ok()?;
        let number = |from: usize| {
            let bytes = bytes[from..from + 8].try_into().ok()?;
            u64::try_from(i64::from_ne_bytes(bytes)).ok()
        };
        let nanoseconds = u32::try_from(number(8)?).ok();
        Some(Duration::new(
            number(0)?,
            nanoseconds.filter(|count| *count < 1_000_000_000)?,
        ))
    }
    #[cfg(not(unix))]
    {
        let _ = address;
        None
    }
}

/// Returns the time of the clock that waits are measured by.
fn uptime() -> Option<Duration> {
    let text = fs::read_to_string("/proc/uptime").ok()?;
    let seconds = text.split(' ').next()?.parse().ok()?;
    Duration::try_from_secs_f64(seconds).ok()
}

#[cfg(all(
    test,
    target_os = "linux",
    any(target_arch = "x86_64", target_arch = "aarch64"),
    not(miri)
))]
mod tests {
    use super::*;
    use std::sync::mpsc;
    use std::thread;
    use std::time::Instant;

    /// Waits until the thread sleeps, and returns where.
    fn asleep(threads: &mut Threads, thread: ThreadId) -> Sleeper {
        let began = Instant::now();
        while began.elapsed() < Duration::from_secs(600) {
            let asked = |other| {
                if other == thread {
                    Asked::Sleeps
                } else {
                    Asked::Nothing
                }
            };
            let sleepers = threads.sleepers(Duration::ZERO, &asked);
            if let Some([sleeper]) = sleepers.as_deref() {
                return *sleeper;
            }
            thread::yield_now();
        }
        panic!("it doesn't sleep");
    }

    /// Starts a thread, and returns its number.
    fn started(run: impl FnOnce() + Send + 'static) -> (ThreadId, thread::JoinHandle<()>) {
        let (tell, told) = mpsc::channel();
        let handle = thread::spawn(move || {
            tell.send(this_thread()).unwrap();
            run();
        });
        (told.recv().unwrap(), handle)
    }

    #[test]
    fn a_thread_that_waits_for_another_has_no_time() {
        let mut threads = Threads::of_this_process();
        let (go, gone) = mpsc::channel::<()>();
        let (number, handle) = started(move || assert!(gone.recv().is_err()));
        let sleeper = asleep(&mut threads, number);
        assert!(!sleeper.is_timed() && !sleeper.is_soon());
        drop(go);
        handle.join().unwrap();
    }

    #[test]
    fn how_far_a_timer_is_away_is_read() {
        let mut threads = Threads::of_this_process();
        for (seconds, is_soon) in [(3600, false), (0, true)] {
            let (go, gone) = mpsc::channel::<()>();
            let wait = Duration::from_secs(seconds) + Duration::from_millis(40);
            let (number, handle) =
                started(
                    move || {
                        while gone.recv_timeout(wait) == Err(mpsc::RecvTimeoutError::Timeout) {}
                    },
                );
            assert!(asleep(&mut threads, number).is_timed());
            // A short wait may be over before its time is read, which is then another number.
            let mut looks = (0..20).map(|_| asleep(&mut threads, number).is_soon());
            assert_eq!(looks.any(|is_soon| is_soon), is_soon, "{seconds}");
            drop(go);
            handle.join().unwrap();
        }
    }

    #[test]
    fn a_thread_that_spins_is_found_by_the_time_that_it_runs() {
        use std::sync::Arc;
        use std::sync::atomic::{AtomicBool, Ordering};
        let mut threads = Threads::of_this_process();
        let is_over = Arc::new(AtomicBool::new(false));
        let of_thread = is_over.clone();
        let (number, handle) = started(move || while !of_thread.load(Ordering::Relaxed) {});
        let patience = Duration::from_millis(5);
        while threads.longest_run(7, |other| other != number) <= patience {
            thread::yield_now();
        }
        is_over.store(true, Ordering::Relaxed);
        handle.join().unwrap();
    }
}
