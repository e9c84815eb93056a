//! How the searched sources differ from the proved ones.

/// A text that occurs once in a file, and what is put in its place.
#[derive(Clone, Copy)]
pub struct Edit {
    pub file: &'static str,
    pub old: &'static str,
    pub new: &'static str,
}

/// A bug that no contract refuses, since it changes only who waits and how long.
#[derive(Clone, Copy)]
pub struct Bug {
    pub name: &'static str,
    pub edit: Edit,
}

const fn edit(file: &'static str, old: &'static str, new: &'static str) -> Edit {
    Edit { file, old, new }
}

const fn bug(name: &'static str, file: &'static str, old: &'static str, new: &'static str) -> Bug {
    Bug {
        name,
        edit: edit(file, old, new),
    }
}

/// Fewer looks, tries and entries. Each further look or try is the same step again, and makes only more orders of the same steps.
pub const SMALLER: [Edit; 4] = [
    edit(
        "rw_journal/book.rs",
        "MOST_ENTRIES: usize = 1_048_576;",
        "MOST_ENTRIES: usize = 16;",
    ),
    edit(
        "rw_seat/acquiring.rs",
        "const LOOKS: u32 = 64;",
        "const LOOKS: u32 = 2;",
    ),
    edit(
        "rw_desk/channel_lock.rs",
        "const LOOKS: u32 = 100;",
        "const LOOKS: u32 = 2;",
    ),
    edit(
        "rw_desk/channel_lock.rs",
        "const TRIES: u32 = 16;",
        "const TRIES: u32 = 1;",
    ),
];

/// The bugs of seats.
const SEATS: [Bug; 7] = [
    bug(
        "a_seat_parks_while_the_book_is_free",
        "rw_seat/acquiring.rs",
        "table.park(rt, 0, ACQUIRED as u32);",
        "table.park(rt, 0, table.peek(0) as u32);",
    ),
    bug(
        "a_seat_never_parks",
        "rw_seat/acquiring.rs",
        "table.park(rt, 0, ACQUIRED as u32);",
        "",
    ),
    bug(
        "a_seat_parks_uncounted",
        "rw_seat/acquiring.rs",
        "sleepers.fetch_add(1, SeqCst);",
        "sleepers.fetch_add(0, SeqCst);",
    ),
    bug(
        "a_release_counts_before_it_frees",
        "rw_seat/acquiring.rs",
        "    table.store::<Release<B>>(seat, 0, FREE);
    if sleepers.load(SeqCst) > 0 {",
        "    let count = sleepers.load(SeqCst);
    table.store::<Release<B>>(seat, 0, FREE);
    if count > 0 {",
    ),
    bug(
        "a_release_wakes_a_second_sleeper_alone",
        "rw_seat/acquiring.rs",
        "if sleepers.load(SeqCst) > 0 {",
        "if sleepers.load(SeqCst) > 1 {",
    ),
    // Two seats can't show it, since one of them doesn't sleep.
    bug(
        "a_release_wakes_nobody_where_two_sleep",
        "rw_seat/acquiring.rs",
        "if sleepers.load(SeqCst) > 0 {",
        "if sleepers.load(SeqCst) == 1 {",
    ),
    bug(
        "a_seat_tries_a_full_journal_eleven_times",
        "rw_seat/calling.rs",
        "    let mut lent = hand_off.take(rt, hand_seat);
    let answer = lent.book().record(pass, channel, call);
    (lent.give(), answer)",
        "    let mut hand_seat = hand_seat;
    let mut tries = 0;
    loop {
        let mut lent = hand_off.take(rt, hand_seat);
        let answer = lent.book().record(pass, channel, call);
        hand_seat = lent.give();
        tries += 1;
        if !matches!(answer, Err(DeskFault::JournalFull)) || tries == 11 {
            return (hand_seat, answer);
        }
    }",
    ),
];

/// The bugs of a channel's lock.
const LOCKS: [Bug; 7] = [
    bug(
        "a_looker_isnt_told",
        "rw_desk/channel_lock.rs",
        "guard.set_watched(true);",
        "",
    ),
    bug(
        "a_sleeper_isnt_noted",
        "rw_desk/channel_lock.rs",
        "guard.set_awaited(true);",
        "",
    ),
    bug(
        "a_change_after_the_looks_is_missed",
        "rw_desk/channel_lock.rs",
        "if self.changes.load(SeqCst) != changes {
            return guard;
        }
        guard.set_awaited(true);",
        "guard.set_awaited(true);",
    ),
    bug(
        "a_waiting_call_never_sleeps",
        "rw_desk/channel_lock.rs",
        "self.changed.wait(rt, guard)",
        "guard",
    ),
    bug(
        "a_change_that_is_told_to_lookers_wakes_nobody",
        "rw_desk/channel_lock.rs",
        "        drop(guard);
        if is_news && has_sleepers {",
        "        drop(guard);
        if is_news && has_sleepers && !has_lookers {",
    ),
    // Two threads can't show it, since one of them doesn't sleep.
    bug(
        "a_change_wakes_one_of_two_that_sleep",
        "rw_desk/channel_lock.rs",
        "self.changed.notify_all();",
        "self.changed.notify_one();",
    ),
    bug(
        "a_desk_tries_a_full_journal_eleven_times",
        "rw_desk/channel_lock.rs",
        "        let mut guard = self.acquire(rt);
        let answer = guard.record(spec, pass, channel, call);
        self.leave(guard, &answer);
        answer",
        "        let mut tries = 0;
        loop {
            let mut guard = self.acquire(rt);
            let answer = guard.record(spec, pass, channel, call);
            self.leave(guard, &answer);
            tries += 1;
            if !matches!(answer, Err(DeskFault::JournalFull)) || tries == 11 {
                return answer;
            }
        }",
    ),
];

/// All bugs.
pub const BUGS: [Bug; 14] = {
    let [a, b, c, d, e, f, g] = SEATS;
    let [h, i, j, k, l, m, n] = LOCKS;
    [a, b, c, d, e, f, g, h, i, j, k, l, m, n]
};
