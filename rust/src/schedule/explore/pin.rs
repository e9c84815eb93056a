//! The processor that a process runs on.
#![allow(unsafe_code)]

/// Lets all threads of this process run on one processor alone: the one with this number among
/// those that the process may use, which are counted round. Where the system has no such call,
/// nothing changes.
pub(super) fn pin_to(number: usize) {
    #[cfg(all(target_os = "linux", not(miri)))]
    linux::pin_to(number);
    #[cfg(not(all(target_os = "linux", not(miri))))]
    let _ = number;
}

#[cfg(all(target_os = "linux", not(miri)))]
mod linux {
    use std::fs;

    /// How many processors a mask has bits for.
    const PROCESSORS: usize = 1024;

    pub(super) fn pin_to(number: usize) {
        let status = fs::read_to_string("/proc/self/status").unwrap_or_default();
        let processors = processors(&status);
        if processors.is_empty() {
            return;
        }
        let processor = processors[number % processors.len()];
        let tasks = fs::read_dir("/proc/self/task").into_iter().flatten();
        for task in tasks.flatten() {
            let name = task.file_name();
            if let Some(thread) = name.to_str().and_then(|name| name.parse().ok()) {
                pin(thread, processor);
            }
        }
    }

    /// Returns the processors that a thread with this status may use.
    fn processors(status: &str) -> Vec<usize> {
        let mut lines = status.lines();
        let list = lines.find_map(|line| line.strip_prefix("Cpus_allowed_list:"));
        let ranges = list.unwrap_or_default().split(',').filter_map(|range| {
            let (first, last) = range.split_once('-').unwrap_or((range, range));
            Some(first.trim().parse::<usize>().ok()?..=last.trim().parse().ok()?)
        });
        ranges
            .flatten()
            .filter(|processor| *processor < PROCESSORS)
            .collect()
    }

    /// Lets this thread of the process run on this processor alone.
    fn pin(thread: i32, processor: usize) {
        unsafe extern "C" {
            fn sched_setaffinity(thread: i32, size: usize, mask: *const u64) -> i32;
        }
        let mut mask = [0u64; PROCESSORS / 64];
        mask[processor / 64] |= 1 << (processor % 64);
        // SAFETY: the mask is alive during the call, which reads as many bytes of it as it has.
        // What it does to a thread changes no memory.
        unsafe { sched_setaffinity(thread, size_of_val(&mask), mask.as_ptr()) };
    }

    #[cfg(test)]
    mod tests {
        use super::*;

        #[test]
        fn the_processors_are_those_of_the_list() {
            assert_eq!(
                processors("Name:\tx\nCpus_allowed_list:\t0-2,5\n"),
                [0, 1, 2, 5]
            );
            assert_eq!(processors("Cpus_allowed_list:\t3\n"), [3]);
            assert!(processors("Name:\tx\n").is_empty());
        }

        #[test]
        fn a_thread_that_is_pinned_has_one_processor() {
            std::thread::spawn(|| {
                let of_thread = || fs::read_to_string("/proc/thread-self/status").unwrap();
                let before = processors(&of_thread());
                let path = fs::read_link("/proc/thread-self").unwrap();
                let thread = path.file_name().unwrap().to_str().unwrap().parse().unwrap();
                let last = before[before.len() - 1];
                pin(thread, last);
                assert_eq!(processors(&of_thread()), [last]);
            })
            .join()
            .unwrap();
        }
    }
}
