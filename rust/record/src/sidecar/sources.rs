//! The sources that the locations name.

use super::{Sidecar, SourceLocation, checksum};
use crate::by_text::TextSet;
use crate::listed::IntoList;
use std::fs;
use std::path::{Path, PathBuf};

/// How many sources are read at most.
const MOST_SOURCES: usize = 256;

/// How many bytes a source has at most that is read, and all of them together.
const MOST_BYTES: u64 = 16_777_216;

/// The parts of paths that the sources of others have: of the standard library, of what cargo has
/// downloaded, and of the copy of tokio's that `cargo yovanelum` builds.
const OTHERS: [&str; 7] = [
    "/.cargo/registry/",
    "/.cargo/git/",
    "/cargo/registry/",
    "/git/checkouts/",
    "/rustc/",
    "/rustlib/",
    "/yovanelum/stand-in/",
];

/// Whether a source is one of the standard library, or of what cargo has downloaded.
pub fn is_downloaded(file: &str) -> bool {
    let file = file.replace('\\', "/");
    OTHERS.iter().any(|other| file.contains(other))
}

impl SourceLocation {
    /// Whether it is in the standard library, or in what cargo has downloaded.
    pub fn is_downloaded(&self) -> bool {
        is_downloaded(&self.file)
    }
}

impl Sidecar {
    /// Adds the folder that the paths of sources are relative to, and the checksums of those that
    /// can be read below it. The folder is what this returns for these paths.
    pub fn add_sources(&mut self, root_of: &dyn Fn(&[&Path]) -> Option<PathBuf>) {
        let mut files = TextSet::new();
        files.extend(self.locations.iter().map(|at| &at.file));
        let paths: Vec<_> = files.iter().map(Path::new).listed();
        let Some(root) = root_of(&paths) else {
            return;
        };
        let mut left = MOST_BYTES;
        for file in files.iter().take(MOST_SOURCES) {
            if let Some(text) = read_below(&root, file, left) {
                left -= text.len() as u64;
                self.ending.sources.insert(file, checksum(&text));
            }
        }
        self.ending.root = Some(root.to_string_lossy().into_owned());
    }
}

/// Reads a source, if it is a file below this folder and has no more bytes than this.
fn read_below(root: &Path, file: &str, most: u64) -> Option<Vec<u8>> {
    let path = root.join(file);
    let is_read = |length| path.starts_with(root) && length <= most;
    let found = fs::metadata(&path).ok()?;
    if !found.is_file() || !is_read(found.len()) {
        return None;
    }
    fs::read(&path)
        .ok()
        .filter(|text| text.len() as u64 <= most)
}

#[cfg(test)]
mod tests {
    use super::*;
    use crate::sidecar::SourceLocation;

    fn at(file: &str) -> SourceLocation {
        SourceLocation {
            file: file.to_string(),
            line: 1,
            column: 1,
        }
    }

    #[test]
    fn the_copy_of_tokio_s_sources_is_none_of_the_program() {
        let copy = "/shop/target/yovanelum/stand-in/tokio-1.53.2/registry/tokio/src/lib.rs";
        assert!(is_downloaded(copy));
        assert!(!is_downloaded("/shop/src/lib.rs"));
    }

    #[test]
    fn sources_below_the_root_have_their_checksums() {
        let this = file!();
        let mut names = Sidecar {
            locations: vec![
                at("/rustc/1/library/core/src/panicking.rs"),
                at(this),
                at("gone.rs"),
                at(this),
            ],
            ..Sidecar::default()
        };
        names.add_sources(&|_| {
            let mut above = Path::new(env!("CARGO_MANIFEST_DIR")).ancestors();
            let root = above.find(|folder| folder.join(this).is_file());
            root.map(Path::to_path_buf)
        });
        let root = names.ending.root.unwrap();
        let text = fs::read(Path::new(&root).join(this)).unwrap();
        assert!(text.starts_with(b"//! The sources that the locations name."));
        let wanted = [(this.to_string(), checksum(&text))];
        assert_eq!(names.ending.sources, wanted.into());
        assert_eq!(
            read_below(Path::new(&root), this, text.len() as u64 - 1),
            None
        );
    }
}
