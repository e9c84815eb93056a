//! The workspace's `Cargo.lock`, in which tokio is replaced while cargo runs. It is put back byte
//! for byte when the run has ended, and by the next run where this one is killed: a copy is beside
//! the files of this crate.

use super::manifest::{packages, value};
use super::signals;
use std::fs::{self, File, OpenOptions};
use std::io::{self, Write};
use std::path::{Path, PathBuf};
use std::time::{Duration, SystemTime};
use std::{process, thread};

/// The address of the registry that the real tokio comes from while it is replaced. Nobody is asked
/// there: a folder is in its place.
pub const REGISTRY: &str = "https://yovanelum.invalid/index";

/// How often a run that waits for another one looks again.
const LOOK: Duration = Duration::from_millis(50);

/// A lock file that is put back when this is dropped.
pub struct Lock {
    path: PathBuf,
    copy: Copy,
    before: Option<Before>,
    is_replaced: bool,
    _turn: LockTurn,
}

/// A lock file as it was.
struct Before {
    bytes: Vec<u8>,
    modified: Option<SystemTime>,
}

impl Lock {
    /// Waits until no other run has replaced this file, and copies it into this folder. If a run
    /// was killed, the file is put back before.
    ///
    /// # Errors
    ///
    /// Returns an error if a file can't be read or written.
    pub fn take(path: PathBuf, folder: &Path) -> io::Result<Lock> {
        fs::create_dir_all(folder)?;
        let turn = LockTurn::wait(folder.join("running"))?;
        let copy = Copy(folder.to_path_buf());
        if let Some(before) = copy.left() {
            put_back_after_kill(&path, before, folder)?;
            copy.remove();
        }
        let before = match fs::read(&path) {
            Ok(bytes) => Some(Before {
                bytes,
                modified: fs::metadata(&path).and_then(|it| it.modified()).ok(),
            }),
            Err(error) if error.kind() == io::ErrorKind::NotFound => None,
            Err(error) => return Err(error),
        };
        copy.write(before.as_ref().map(|before| &*before.bytes))?;
        Ok(Lock {
            path,
            copy,
            before,
            is_replaced: false,
            _turn: turn,
        })
    }

    /// Returns the text of the file as it is now.
    pub fn text(&self) -> String {
        fs::read_to_string(&self.path).unwrap_or_default()
    }

    /// Replaces this version of tokio, which comes from this source, in the file. If its text isn't
    /// one that this knows, cargo resolves the packages again.
    ///
    /// # Errors
    ///
    /// Returns an error if the file can't be written.
    pub fn replace_tokio(&mut self, version: &str, source: &str) -> io::Result<()> {
        self.is_replaced = true;
        match with_stand_in(&self.text(), version, source) {
            Some(text) => fs::write(&self.path, text),
            None => Ok(()),
        }
    }

    fn put_back(&self) -> io::Result<()> {
        let now = fs::read(&self.path).ok();
        let before = self.before.as_ref().map(|before| &before.bytes);
        if now.as_ref() == before {
            return Ok(());
        }
        if self.is_replaced && now.as_ref().is_some_and(|now| !is_of_a_run(now, before)) {
            let kept = self.copy.keep()?;
            say_that_it_is_another(&self.path, &kept, "this run");
            return Ok(());
        }
        put(&self.path, self.before.as_ref())
    }
}

impl Drop for Lock {
    fn drop(&mut self) {
        match self.put_back() {
            Ok(()) => self.copy.remove(),
            Err(error) => eprintln!(
                "yovanelum: {} isn't as it was, and is put back by the next run: {error}",
                self.path.display()
            ),
        }
    }
}

/// Writes a lock file as it was, with its time, so that nothing is built again for it.
fn put(path: &Path, before: Option<&Before>) -> io::Result<()> {
    let Some(before) = before else {
        return match fs::remove_file(path) {
            Err(error) if error.kind() != io::ErrorKind::NotFound => Err(error),
            _ => Ok(()),
        };
    };
    fs::write(path, &before.bytes)?;
    if let Some(modified) = before.modified {
        let file = File::options().append(true).open(path)?;
        // The bytes are what counts.
        let _ = file.set_modified(modified);
    }
    Ok(())
}

/// Whether a lock file with these bytes is one that a run of this command has left: one in which
/// tokio is replaced, or one that was being written.
fn is_of_a_run(now: &[u8], before: Option<&Vec<u8>>) -> bool {
    let text = String::from_utf8_lossy(now);
    let is_a_part = before.is_some_and(|before| before.starts_with(now));
    text.contains(REGISTRY) || is_a_part || !text.ends_with('\n')
}

fn say_that_it_is_another(path: &Path, kept: &Path, since: &str) {
    eprintln!(
        "yovanelum: another program has changed {} since {since} began, so it is left as it is: before, it was {}",
        path.display(),
        kept.display()
    );
}

/// Puts a lock file back that a killed run has left.
fn put_back_after_kill(path: &Path, before: Option<Vec<u8>>, folder: &Path) -> io::Result<()> {
    let now = fs::read(path).ok();
    if now == before {
        return Ok(());
    }
    if now
        .as_ref()
        .is_some_and(|now| !is_of_a_run(now, before.as_ref()))
    {
        let kept = Copy(folder.to_path_buf()).keep()?;
        say_that_it_is_another(path, &kept, "a run that was killed");
        return Ok(());
    }
    let before = before.map(|bytes| Before {
        bytes,
        modified: None,
    });
    put(path, before.as_ref())?;
    eprintln!(
        "yovanelum: {} is as it was before a run that was killed",
        path.display()
    );
    Ok(())
}

/// The copy of a lock file, in this folder.
struct Copy(PathBuf);

impl Copy {
    fn path(&self) -> PathBuf {
        self.0.join("Cargo.lock.before")
    }

    /// Where it is said that there was no lock file.
    fn none(&self) -> PathBuf {
        self.0.join("Cargo.lock.none")
    }

    /// Returns the copy that a killed run has left, which may be of a lock file that wasn't there.
    fn left(&self) -> Option<Option<Vec<u8>>> {
        let left = fs::read(self.path()).ok();
        left.map(Some)
            .or_else(|| self.none().exists().then_some(None))
    }

    /// Writes the copy, so that it is never there in part.
    fn write(&self, bytes: Option<&[u8]>) -> io::Result<()> {
        let Some(bytes) = bytes else {
            return fs::write(self.none(), "");
        };
        let beside = self.0.join("Cargo.lock.part");
        fs::write(&beside, bytes)?;
        fs::rename(&beside, self.path())
    }

    /// Keeps the copy for the user, and returns where.
    fn keep(&self) -> io::Result<PathBuf> {
        let kept = self.0.join("Cargo.lock.kept");
        match fs::copy(self.path(), &kept) {
            Err(error) if error.kind() != io::ErrorKind::NotFound => Err(error),
            _ => Ok(kept),
        }
    }

    fn remove(&self) {
        let _ = fs::remove_file(self.path());
        let _ = fs::remove_file(self.none());
    }
}

/// The turn of a run: others wait until this is dropped.
struct LockTurn(PathBuf);

impl LockTurn {
    fn wait(path: PathBuf) -> io::Result<LockTurn> {
        let mut is_told = false;
        loop {
            match OpenOptions::new().write(true).create_new(true).open(&path) {
                Ok(mut file) => {
                    write!(file, "{}", process::id())?;
                    return Ok(LockTurn(path));
                }
                Err(error) if error.kind() == io::ErrorKind::AlreadyExists => {}
                Err(error) => return Err(error),
            }
            match running(&path) {
                Some(number) if !is_told => {
                    eprintln!(
                        "    Blocking waiting for another `cargo yovanelum` of this workspace (process {number})"
                    );
                    is_told = true;
                }
                Some(_) => {}
                None => {
                    let _ = fs::remove_file(&path);
                }
            }
            if signals::has_come() {
                return Err(io::Error::other("another run of this workspace goes on"));
            }
            thread::sleep(LOOK);
        }
    }
}

impl Drop for LockTurn {
    fn drop(&mut self) {
        let _ = fs::remove_file(&self.0);
    }
}

/// Returns the number of the process that has its turn, if it runs. A file without a number is
/// being written, unless it is old.
fn running(path: &Path) -> Option<u32> {
    let text = fs::read_to_string(path).ok()?;
    let Ok(number) = text.parse() else {
        let written = fs::metadata(path).and_then(|file| file.modified()).ok()?;
        return written
            .elapsed()
            .is_ok_and(|age| age < Duration::from_secs(2))
            .then_some(0);
    };
    signals::runs(number).then_some(number)
}

/// Returns a lock file in which a package by its path stands for this version of tokio of this
/// source, and asks for the real one: `None` where it has several, or another form.
fn with_stand_in(lock: &str, version: &str, source: &str) -> Option<String> {
    let of_version = packages(lock, "tokio").filter(|it| value(it, "version") == Some(version));
    let is_one = of_version.count() == 1;
    if !is_one
        || lock
            .lines()
            .any(|line| line.starts_with("\"checksum tokio "))
    {
        return None;
    }
    let beside = match packages(lock, "pin-project-lite").count() {
        1 => " \"pin-project-lite\",\n",
        _ => return None,
    };
    let mut out = String::with_capacity(lock.len() + 400);
    for (index, part) in lock.split("[[package]]\n").enumerate() {
        let is_tokio =
            value(part, "name") == Some("tokio") && value(part, "version") == Some(version);
        out.push_str(if index > 0 { "[[package]]\n" } else { "" });
        if !is_tokio {
            out.push_str(&part.replace("\n \"tokio\",\n", &format!("\n \"tokio {version}\",\n")));
            continue;
        }
        let real = format!("tokio {version} (registry+{REGISTRY})");
        out.push_str(&format!(
            "name = \"tokio\"\nversion = \"{version}\"\ndependencies = [\n{beside} \"{real}\",\n \"yovanelum\",\n]\n\n[[package]]\n"
        ));
        let lines = part.lines().filter(|line| !line.starts_with("checksum = "));
        for line in lines {
            let is_source = line.starts_with("source = ");
            if is_source && value(line, "source") != Some(source) {
                return None;
            }
            let line = if is_source {
                format!("source = \"registry+{REGISTRY}\"")
            } else {
                line.to_string()
            };
            out.push_str(&line);
            out.push('\n');
        }
    }
    if packages(lock, "yovanelum").next().is_none() {
        out.push_str(&own_packages());
    }
    Some(out)
}

/// The packages of a recorder, as a lock file has them.
fn own_packages() -> String {
    let version = env!("CARGO_PKG_VERSION");
    let of = |name: &str, uses: &[&str]| {
        let uses: String = uses.iter().map(|name| format!(" \"{name}\",\n")).collect();
        let uses = match &*uses {
            "" => String::new(),
            uses => format!("dependencies = [\n{uses}]\n"),
        };
        format!("\n[[package]]\nname = \"{name}\"\nversion = \"{version}\"\n{uses}")
    };
    of("yovanelum", &["yovanelum-core", "yovanelum-record"])
        + &of("yovanelum-core", &[])
        + &of("yovanelum-record", &["yovanelum-core"])
}

#[cfg(test)]
mod tests {
    use super::*;

    const SOURCE: &str = "registry+https://github.com/rust-lang/crates.io-index";
    const LOCK: &str = "version = 4\n\n[[package]]\nname = \"pin-project-lite\"\nversion = \"0.2.9\"\n\
                         source = \"registry+https://github.com/rust-lang/crates.io-index\"\n\n\
                        [[package]]\nname = \"shop\"\nversion = \"0.0.0\"\ndependencies = [\n \"tokio\",\n]\n\n\
                        [[package]]\nname = \"tokio\"\nversion = \"1.24.2\"\nsource = \"registry+https://github.com/rust-lang/crates.io-index\"\n\
                         checksum = \"ab\"\ndependencies = [\n \"pin-project-lite\",\n]\n";

    /// A folder of its own for a test.
    fn folder(name: &str) -> PathBuf {
        let folder = std::env::temp_dir().join(format!("cargo-yovanelum-{name}-{}", process::id()));
        let _ = fs::remove_dir_all(&folder);
        fs::create_dir_all(&folder).unwrap();
        folder
    }

    #[test]
    fn tokio_is_replaced_in_a_lock_file_as_cargo_does_it() {
        // What cargo 1.95 wrote for this patch.
        let version = env!("CARGO_PKG_VERSION");
        let wanted = format!(
            "version = 4\n\n[[package]]\nname = \"pin-project-lite\"\nversion = \"0.2.9\"\n\
                         source = \"registry+https://github.com/rust-lang/crates.io-index\"\n\n\
             [[package]]\nname = \"shop\"\nversion = \"0.0.0\"\ndependencies = [\n \"tokio 1.24.2\",\n]\n\n\
             [[package]]\nname = \"tokio\"\nversion = \"1.24.2\"\n\
                         dependencies = [\n \"pin-project-lite\",\n \"tokio 1.24.2 (registry+https://yovanelum.invalid/index)\",\n \"yovanelum\",\n]\n\n\
             [[package]]\nname = \"tokio\"\nversion = \"1.24.2\"\nsource = \"registry+https://yovanelum.invalid/index\"\n\
                         dependencies = [\n \"pin-project-lite\",\n]\n\n\
             [[package]]\nname = \"yovanelum\"\nversion = \"{version}\"\ndependencies = [\n \"yovanelum-core\",\n \"yovanelum-record\",\n]\n\n\
             [[package]]\nname = \"yovanelum-core\"\nversion = \"{version}\"\n\n\
             [[package]]\nname = \"yovanelum-record\"\nversion = \"{version}\"\ndependencies = [\n \"yovanelum-core\",\n]\n"
        );
        assert_eq!(with_stand_in(LOCK, "1.24.2", SOURCE), Some(wanted));
        assert_eq!(with_stand_in(LOCK, "1.25.0", SOURCE), None);
        assert_eq!(
            with_stand_in(LOCK, "1.24.2", "registry+https://a.example"),
            None
        );
        assert_eq!(with_stand_in("", "1.24.2", SOURCE), None);
    }

    #[test]
    fn a_lock_file_is_put_back_with_its_time() {
        let folder = folder("put-back");
        let path = folder.join("Cargo.lock");
        fs::write(&path, LOCK).unwrap();
        let before = fs::metadata(&path).unwrap().modified().unwrap();
        let mut lock = Lock::take(path.clone(), &folder.join("own")).unwrap();
        lock.replace_tokio("1.24.2", SOURCE).unwrap();
        assert!(lock.text().contains(REGISTRY));
        drop(lock);
        assert_eq!(fs::read_to_string(&path).unwrap(), LOCK);
        assert_eq!(fs::metadata(&path).unwrap().modified().unwrap(), before);
        assert_eq!(fs::read_dir(folder.join("own")).unwrap().count(), 0);
        fs::remove_dir_all(&folder).unwrap();
    }

    #[test]
    fn where_there_was_none_there_is_none() {
        let folder = folder("none");
        let path = folder.join("Cargo.lock");
        let lock = Lock::take(path.clone(), &folder.join("own")).unwrap();
        fs::write(&path, LOCK).unwrap();
        drop(lock);
        assert!(!path.exists());
        fs::remove_dir_all(&folder).unwrap();
    }

    #[test]
    fn the_run_after_a_killed_one_puts_it_back() {
        let folder = folder("killed");
        let (path, own) = (folder.join("Cargo.lock"), folder.join("own"));
        fs::create_dir_all(&own).unwrap();
        // As far as a run may have come: what it has put there, a part of it, and nothing yet.
        let replaced = with_stand_in(LOCK, "1.24.2", SOURCE).unwrap();
        for left in [&replaced, &replaced[..100], LOCK, &LOCK[..50], ""] {
            fs::write(own.join("Cargo.lock.before"), LOCK).unwrap();
            // No process has this number.
            fs::write(own.join("running"), "4194305").unwrap();
            fs::write(&path, left).unwrap();
            drop(Lock::take(path.clone(), &own).unwrap());
            assert_eq!(fs::read_to_string(&path).unwrap(), LOCK, "{left}");
        }
        fs::remove_dir_all(&folder).unwrap();
    }

    #[test]
    fn what_another_program_has_written_since_is_left() {
        let folder = folder("others");
        let (path, own) = (folder.join("Cargo.lock"), folder.join("own"));
        let updated = LOCK.replace("1.24.2", "1.53.2");
        fs::write(&path, LOCK).unwrap();
        let mut lock = Lock::take(path.clone(), &own).unwrap();
        lock.replace_tokio("1.24.2", SOURCE).unwrap();
        fs::write(&path, &updated).unwrap();
        drop(lock);
        assert_eq!(fs::read_to_string(&path).unwrap(), updated);
        assert_eq!(
            fs::read_to_string(own.join("Cargo.lock.kept")).unwrap(),
            LOCK
        );
        fs::remove_dir_all(&folder).unwrap();
    }
}
