//! Which dumps of a folder stay.

use super::{START, time_in_digits};
use std::cmp::Ordering;
use std::path::{Path, PathBuf};
use std::time::Duration;
use std::{fs, io, process};
use yovanelum_record::by_text::TextMap;
use yovanelum_record::listed::IntoList;
use yovanelum_record::sorting::sort_by;

/// How old a part of another process is that is removed. To write a dump takes much less.
const LONGEST: Duration = Duration::from_secs(600);

/// How old it is at least where that process has ended. One that isn't seen here may run in another
/// container.
const PATIENCE: Duration = Duration::from_secs(2);

/// What may call for a dump, as in its name.
const TRIGGERS: [&str; 5] = ["lag", "close", "panic", "call", "limit"];

/// The files of one dump.
#[derive(Default)]
struct DumpFiles {
    files: Vec<PathBuf>,
    // Whether its journal is there, which is written last.
    is_whole: bool,
}

/// The name of a dump. They are in the order in which they are removed.
#[derive(PartialEq, Eq, PartialOrd, Ord)]
struct RemovalOrder {
    age: Age,
    time: String,
    // How many dumps the process had begun, this one included.
    number: u64,
    name: String,
}

impl RemovalOrder {
    /// That of a dump with this name.
    fn of(age: Age, name: &str) -> RemovalOrder {
        let mut parts = name.split('-').skip(1);
        let time = parts.next().unwrap_or_default().to_string();
        let number = parts.nth(1).and_then(|number| number.parse().ok());
        RemovalOrder {
            age,
            time,
            number: number.unwrap_or_default(),
            name: name.to_string(),
        }
    }
}

#[derive(PartialEq, Eq, PartialOrd, Ord)]
enum Age {
    // The clock was set back since.
    OfTheFuture,
    Older,
    JustWritten,
}

/// Removes all dumps but the last ones of the same trigger from the folder of this one, which was
/// just written, and what processes that have ended have left of theirs. So a storm of panics
/// leaves the dumps of a lag. `now` is in milliseconds since 1970.
pub(in crate::harness::flight) fn keep(written: &Path, keep: usize, now: Option<u64>) {
    let folder = written.parent().unwrap_or(Path::new("."));
    let dumps = match dumps_in(folder, written, now) {
        Ok(dumps) => dumps,
        Err(error) => {
            let folder = folder.display();
            eprintln!("yovanelum: older dumps in {folder} aren't removed: {error}");
            return;
        }
    };
    let own = written.file_stem().and_then(|name| name.to_str());
    let own = own.and_then(trigger_of);
    // One without a trigger was written by an earlier version.
    let is_alike = |name: &str| own.is_none() || trigger_of(name).is_none_or(|it| own == Some(it));
    let whole = dumps
        .iter()
        .filter(|(it, dump)| dump.is_whole && is_alike(&it.name))
        .count();
    let mut too_many = whole.saturating_sub(keep);
    for (RemovalOrder { age, name, .. }, dump) in dumps {
        let goes = if dump.is_whole {
            let goes = too_many > 0 && is_alike(&name);
            too_many -= usize::from(goes);
            goes
        } else {
            age != Age::JustWritten && (is_own(&name) || is_left(&name, &dump.files))
        };
        if goes {
            dump.files.iter().for_each(|file| remove(file));
        }
    }
}

fn remove(path: &Path) {
    // Another process may have removed it.
    if let Err(error) = fs::remove_file(path) {
        if error.kind() != io::ErrorKind::NotFound {
            eprintln!("yovanelum: {} isn't removed: {error}", path.display());
        }
    }
}

/// Returns the dumps of a folder, in the order in which they are removed.
fn dumps_in(
    folder: &Path,
    written: &Path,
    now: Option<u64>,
) -> io::Result<Vec<(RemovalOrder, DumpFiles)>> {
    let mut dumps = TextMap::new();
    for file in fs::read_dir(folder)?.flatten() {
        let name = file.file_name();
        let Some((name, ending)) = name.to_str().and_then(dump_of) else {
            continue;
        };
        let age = if written.file_stem().is_some_and(|it| it == name) {
            Age::JustWritten
        } else if is_of_the_future(name, now) {
            Age::OfTheFuture
        } else {
            Age::Older
        };
        let begin = || (RemovalOrder::of(age, name), DumpFiles::default());
        let (_, dump) = dumps.get_or_insert_with(name, begin);
        dump.files.push(file.path());
        dump.is_whole |= ending == "journal";
    }
    let dumps = dumps.into_items().into_iter();
    let mut dumps: Vec<_> = dumps.map(|(_, dump)| dump).listed();
    sort_by(&mut dumps, |(one, _), (other, _)| one.cmp(other));
    Ok(dumps)
}

/// Returns the dump that a file is one of, if it is, and the file's ending.
fn dump_of(file: &str) -> Option<(&str, &str)> {
    let (dump, ending) = file.split_once('.')?;
    let mut parts = dump.strip_prefix(START)?.split('-');
    let (time, process, number) = (parts.next()?, parts.next()?, parts.next()?);
    let is_number = |text: &str| !text.is_empty() && text.bytes().all(|it| it.is_ascii_digit());
    let (day, rest) = time.split_once('T')?;
    let is_time = is_number(day) && is_number(rest.strip_suffix('Z')?);
    let is_part = ending.ends_with(".part");
    let is_dump = matches!(ending, "journal" | "names") || is_part;
    let is_trigger = parts.next().is_none_or(|it| TRIGGERS.contains(&it));
    let is_last = is_trigger && parts.next().is_none();
    let is_whole = is_last && is_number(process) && is_number(number);
    (is_dump && is_time && is_whole).then_some((dump, ending))
}

/// Returns what has called for a dump, if its name says it.
fn trigger_of(dump: &str) -> Option<&str> {
    dump[START.len()..].split('-').nth(3)
}

/// Whether a dump has a later time than now.
fn is_of_the_future(dump: &str, now: Option<u64>) -> bool {
    let time = dump[START.len()..].split('-').next();
    let now = now.map(time_in_digits);
    now.zip(time)
        .is_some_and(|(now, time)| time.cmp(&now) == Ordering::Greater)
}

/// Whether this process has begun a dump. It writes one at a time, so it is none that is being
/// written.
fn is_own(dump: &str) -> bool {
    let own = cfg!(not(target_family = "wasm")).then(process::id);
    own.is_some_and(|own| process_of(dump) == Some(&own.to_string()))
}

fn process_of(dump: &str) -> Option<&str> {
    dump[START.len()..].split('-').nth(1)
}

/// Whether nobody has written to these files of a dump for long, or for a while since its process
/// has ended. Only Linux can say so.
fn is_left(dump: &str, files: &[PathBuf]) -> bool {
    let has_ended = || {
        let process = process_of(dump).map(|it| Path::new("/proc").join(it));
        cfg!(target_os = "linux") && process.is_some_and(|process| !process.exists())
    };
    let is_old = |path: &PathBuf| {
        let modified = fs::metadata(path).and_then(|file| file.modified());
        let age = modified.ok().and_then(|modified| modified.elapsed().ok());
        age.is_some_and(|age| age > LONGEST || age > PATIENCE && has_ended())
    };
    files.iter().all(is_old)
}

#[cfg(test)]
mod tests {
    use super::super::write;
    use super::*;
    use crate::temporary::{files_in, fresh};
    use std::time::SystemTime;

    const DAYS: [&str; 3] = [
        "20260101T000000000Z-9-1",
        "20260101T000000001Z-8-1",
        "20260102T000000000Z-7-9",
    ];

    fn write_dump(folder: &Path, dump: &str) -> PathBuf {
        write(&folder.join(format!("{START}{dump}")), "j", "n").unwrap()
    }

    /// Returns the files of these dumps and these others.
    fn files_of(dumps: &[&str], others: &[&str]) -> Vec<String> {
        let mut files = others.iter().map(|it| it.to_string()).collect::<Vec<_>>();
        for dump in dumps {
            files.extend(["journal", "names"].map(|ending| format!("{START}{dump}.{ending}")));
        }
        files.sort();
        files
    }

    fn remove_all(folder: &Path) {
        // One by one: a WebAssembly runner that lists files while they are removed leaves some out.
        for file in files_in(folder) {
            fs::remove_file(folder.join(file)).unwrap();
        }
        fs::remove_dir(folder).unwrap();
    }

    #[test]
    fn the_last_dumps_stay_and_what_is_no_dump() {
        let folder = fresh("flight-kept");
        let paths = DAYS.map(|dump| write_dump(&folder, dump));
        let others = [
            "flight-1.journal",
            "flight-20260101T0Z-1-1-1.names",
            "a.journal",
            "flight-20260101T0Z-1-1.html",
        ];
        for other in others {
            fs::write(folder.join(other), "").unwrap();
        }
        let part = folder.join(format!("{START}{}.journal.9-1.part", DAYS[0]));
        fs::write(&part, "").unwrap();
        keep(&paths[2], 2, None);
        assert_eq!(files_in(&folder), files_of(&DAYS[1..], &others));
        remove_all(&folder);
    }

    #[test]
    fn dumps_of_one_millisecond_are_in_the_order_of_their_numbers() {
        let folder = fresh("flight-numbers");
        let dumps = [9, 10, 11].map(|number| format!("20260101T000000000Z-9-{number}"));
        let paths = dumps.each_ref().map(|dump| write_dump(&folder, dump));
        keep(&paths[2], 2, None);
        assert_eq!(files_in(&folder), files_of(&[&dumps[1], &dumps[2]], &[]));
        remove_all(&folder);
    }

    #[test]
    fn what_killed_processes_have_left_displaces_no_dump_and_goes() {
        let folder = fresh("flight-left");
        let paths = DAYS.map(|dump| write_dump(&folder, dump));
        let part = |process: u32, number: u32| {
            let name = format!("{START}20260103T000000000Z-{process}-{number}.names");
            [name.clone(), format!("{name}.{process}-0.part")]
        };
        // No system gives a process this number.
        let (other, old) = (part(u32::MAX, 1), part(u32::MAX, 2));
        for name in [&other, &old].into_iter().flatten() {
            fs::write(folder.join(name), "").unwrap();
        }
        let long_ago = SystemTime::now() - 2 * LONGEST;
        for name in &old {
            let file = fs::File::options().append(true).open(folder.join(name));
            file.unwrap().set_modified(long_ago).unwrap();
        }
        keep(&paths[2], 3, None);
        // The other process may be writing.
        let left = [&*other[0], &*other[1]];
        assert_eq!(files_in(&folder), files_of(&DAYS, &left));
        if cfg!(not(target_family = "wasm")) {
            for name in part(process::id(), 1) {
                fs::write(folder.join(name), "").unwrap();
            }
            keep(&paths[2], 3, None);
            assert_eq!(files_in(&folder), files_of(&DAYS, &left));
        }
        remove_all(&folder);
    }

    #[test]
    fn dumps_of_panics_leave_those_of_a_lag() {
        let folder = fresh("flight-triggers");
        let lag = format!("{}-lag", DAYS[0]);
        write_dump(&folder, &lag);
        let panics = [1, 2, 3].map(|number| format!("20260102T000000000Z-7-{number}-panic"));
        for panic in &panics {
            keep(&write_dump(&folder, panic), 2, None);
        }
        let left = [&*lag, &panics[1], &panics[2]];
        assert_eq!(files_in(&folder), files_of(&left, &[]));
        // A word that is no trigger is in the name of no dump.
        assert_eq!(dump_of("flight-20260101T0Z-1-1-other.names"), None);
        remove_all(&folder);
    }

    #[test]
    #[cfg_attr(
        not(target_os = "linux"),
        ignore = "only Linux says whether a process runs"
    )]
    fn a_part_of_a_process_that_was_killed_is_removed_by_the_next_dump() {
        let folder = fresh("flight-killed");
        let written = write_dump(&folder, &format!("{}-lag", DAYS[2]));
        // No system gives a process this number, and the first one always runs.
        let parts = [u32::MAX, 1].map(|process| {
            let path = folder.join(format!(
                "{START}20260103T000000000Z-{process}-1-lag.journal.{process}-0.part"
            ));
            fs::write(&path, "").unwrap();
            let file = fs::File::options().append(true).open(&path).unwrap();
            let before = SystemTime::now() - 2 * PATIENCE;
            file.set_modified(before).unwrap();
            path
        });
        keep(&written, 3, None);
        assert_eq!(parts.map(|part| part.exists()), [false, true]);
        remove_all(&folder);
    }

    #[test]
    fn dumps_of_before_the_clock_was_set_back_go_first() {
        let folder = fresh("flight-set-back");
        let paths = DAYS.map(|dump| write_dump(&folder, dump));
        // 1 January 2026, a millisecond after the first one of that day, which was written last.
        let now = 1_767_225_600_001;
        assert!(DAYS[1].starts_with(&time_in_digits(now)));
        keep(&paths[0], 2, Some(now));
        assert_eq!(files_in(&folder), files_of(&DAYS[..2], &[]));
        // The one that was just written stays in any case.
        keep(&paths[0], 1, None);
        assert_eq!(files_in(&folder), files_of(&DAYS[..1], &[]));
        remove_all(&folder);
    }
}
