//! In which system call a thread waits, by the line that Linux has for it: `running`, or the number
//! of the call with its arguments.

/// What a thread does.
#[derive(Clone, Copy, Debug, PartialEq, Eq)]
pub(super) enum Doing {
    /// It runs, or is to run.
    Runs,
    /// It waits for something else than time.
    Waits,
    /// It waits, and its wait ends by time.
    WaitsForTime(Timer),
}

/// Until when a thread waits that waits for time.
#[derive(Clone, Copy, Debug, PartialEq, Eq)]
pub(super) enum Timer {
    /// This number of milliseconds from where the wait began.
    Milliseconds(u64),
    /// A time that stands at this address. It is one of a clock, or one from where the wait began.
    At { address: u64, is_of_clock: bool },
}

/// The numbers of system calls in which a thread waits for time.
struct CallNumbers {
    nanosleep: i64,
    clock_nanosleep: i64,
    futex: i64,
    epoll_wait: i64,
    epoll_pwait: i64,
    epoll_pwait2: i64,
    poll: i64,
    ppoll: i64,
    select: i64,
    pselect: i64,
}

#[cfg(target_arch = "x86_64")]
const NUMBERS: Option<CallNumbers> = Some(X86_64);
#[cfg(target_arch = "aarch64")]
const NUMBERS: Option<CallNumbers> = Some(AARCH64);
#[cfg(not(any(target_arch = "x86_64", target_arch = "aarch64")))]
const NUMBERS: Option<CallNumbers> = None;

#[allow(dead_code)]
const X86_64: CallNumbers = CallNumbers {
    nanosleep: 35,
    clock_nanosleep: 230,
    futex: 202,
    epoll_wait: 232,
    epoll_pwait: 281,
    epoll_pwait2: 441,
    poll: 7,
    ppoll: 271,
    select: 23,
    pselect: 270,
};

/// It has no `epoll_wait`, `poll` and `select`.
#[allow(dead_code)]
const AARCH64: CallNumbers = CallNumbers {
    nanosleep: 101,
    clock_nanosleep: 115,
    futex: 98,
    epoll_wait: -1,
    epoll_pwait: 22,
    epoll_pwait2: 441,
    poll: -1,
    ppoll: 73,
    select: -1,
    pselect: 72,
};

/// The operation of a futex that waits until a time of a clock, without the flags.
const FUTEX_WAIT_BITSET: u64 = 9;
const FUTEX_OPERATION: u64 = 0x7f;

/// Whether the numbers of this architecture are known.
pub(super) fn is_known() -> bool {
    NUMBERS.is_some()
}

/// Returns what the thread does whose line this is.
pub(super) fn doing(line: &str) -> Doing {
    NUMBERS.map_or(Doing::Runs, |numbers| numbers.doing(line))
}

impl CallNumbers {
    fn doing(&self, line: &str) -> Doing {
        let mut words = line.split_ascii_whitespace();
        let Some(Ok(number)) = words.next().map(str::parse::<i64>) else {
            return Doing::Runs;
        };
        let mut arguments = [0; 6];
        for (argument, word) in arguments.iter_mut().zip(words) {
            *argument = u64::from_str_radix(word.trim_start_matches("0x"), 16).unwrap_or(0);
        }
        match self.timer(number, arguments) {
            Some(timer) => Doing::WaitsForTime(timer),
            None => Doing::Waits,
        }
    }

    /// Returns until when this call waits, if it waits for time. A number of milliseconds below 0
    /// stands for no time.
    fn timer(&self, number: i64, arguments: [u64; 6]) -> Option<Timer> {
        let at = |address: u64, is_of_clock| {
            (address != 0).then_some(Timer::At {
                address,
                is_of_clock,
            })
        };
        let milliseconds = |value: u64| {
            let is_none = (value as u32 as i32) < 0;
            (!is_none).then_some(Timer::Milliseconds(value & 0xffff_ffff))
        };
        match number {
            -1 => None,
            _ if number == self.nanosleep => at(arguments[0], false),
            _ if number == self.clock_nanosleep => at(arguments[2], arguments[1] & 1 == 1),
            _ if number == self.futex => {
                let is_of_clock = arguments[1] & FUTEX_OPERATION == FUTEX_WAIT_BITSET;
                at(arguments[3], is_of_clock)
            }
            _ if number == self.epoll_wait || number == self.epoll_pwait => {
                milliseconds(arguments[3])
            }
            _ if number == self.epoll_pwait2 => at(arguments[3], false),
            _ if number == self.poll => milliseconds(arguments[2]),
            _ if number == self.ppoll => at(arguments[2], false),
            // Their time is one of microseconds, and short waits are what they are used for.
            _ if number == self.select || number == self.pselect => {
                (arguments[4] != 0).then_some(Timer::Milliseconds(0))
            }
            _ => None,
        }
    }
}

#[cfg(test)]
mod tests {
    use super::*;

    const NO_TIME: Doing = Doing::Waits;

    fn at(address: u64, is_of_clock: bool) -> Doing {
        Doing::WaitsForTime(Timer::At {
            address,
            is_of_clock,
        })
    }

    #[test]
    fn a_thread_that_runs_has_no_number() {
        assert_eq!(X86_64.doing("running\n"), Doing::Runs);
        assert_eq!(X86_64.doing(""), Doing::Runs);
        assert_eq!(X86_64.doing("-1 0x7ffd 0x7f"), NO_TIME);
    }

    // The lines are those that Linux 6.1 has for a `sleep`, a condition variable without and with a
    // time, a read, and runtimes of tokio.
    #[test]
    fn waits_are_told_by_their_numbers_and_arguments() {
        let line = "230 0x0 0x0 0x7ffc1000 0x7ffc1000 0x0 0x0 0x7ffc0fe0 0x7f12\n";
        assert_eq!(X86_64.doing(line), at(0x7ffc_1000, false));
        let line = "202 0x7f00 0x189 0x0 0x0 0x0 0xffffffff 0x7f01 0x7f02";
        assert_eq!(X86_64.doing(line), NO_TIME);
        let line = "202 0x7f00 0x89 0x0 0x7f55 0x0 0xffffffff 0x7f01 0x7f02";
        assert_eq!(X86_64.doing(line), at(0x7f55, true));
        assert_eq!(
            X86_64.doing("0 0x3 0x7f 0x20 0x7f 0xff 0x0 0x7f 0x7f"),
            NO_TIME
        );
        let line = "232 0x4 0x7f 0x400 0xffffffff 0x0 0x0 0x7f 0x7f";
        assert_eq!(X86_64.doing(line), NO_TIME);
        let two = Doing::WaitsForTime(Timer::Milliseconds(2));
        assert_eq!(
            X86_64.doing("232 0x4 0x7f 0x400 0x2 0x0 0x0 0x7f 0x7f"),
            two
        );
        assert_eq!(
            AARCH64.doing("22 0x4 0x7f 0x400 0x2 0x0 0x8 0x7f 0x7f"),
            two
        );
        let line = "98 0x7f00 0x89 0x0 0x7f55 0x0 0xffffffff 0x7f01 0x7f02";
        assert_eq!(AARCH64.doing(line), at(0x7f55, true));
        assert_eq!(
            AARCH64.doing("202 0x3 0x7f 0x7f 0x80000 0x0 0x0 0x7f 0x7f"),
            NO_TIME
        );
    }
}
