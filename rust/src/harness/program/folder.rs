//! The folder `target` of the build that a program is from.

use std::env;
use std::path::{Path, PathBuf};

/// The files of which cargo writes one at least into such a folder.
const MARKS: [&str; 2] = [".rustc_info.json", "CACHEDIR.TAG"];

/// How many folders above a program are looked at. Cargo puts it seven below at most.
const LOOKED_AT: usize = 7;

/// The variables that name the folders in which the system looks for shared libraries, to which
/// cargo adds those of the build.
const LIBRARY_PATHS: [&str; 3] = ["LD_LIBRARY_PATH", "DYLD_FALLBACK_LIBRARY_PATH", "PATH"];

/// Returns the folder of the build that the program with this path is from. A test in documentation
/// is built elsewhere, so the folder is then that of the libraries beside which cargo runs it, or
/// the one that the variable `CARGO_TARGET_DIR` names, or the folder `target` of this package or of
/// its workspace.
pub(super) fn of_build(program: &Path, here: &Path) -> PathBuf {
    let of_program = || marked_above(program);
    let of_libraries = || {
        // WebAssembly has no lists of folders, and to split one would panic.
        let is_any = !cfg!(target_family = "wasm");
        let names = LIBRARY_PATHS.iter().filter(|_| is_any);
        names.filter_map(env::var_os).find_map(|paths| {
            let mut folders = env::split_paths(&paths);
            folders.find_map(|folder| marked_above(&folder.join("program")))
        })
    };
    // A relative one is meant from the folder in which cargo runs, and that may be one above.
    let named = env::var_os("CARGO_TARGET_DIR").map_or_else(|| "target".into(), PathBuf::from);
    let of_variable = || {
        let above = here.ancestors().map(|folder| folder.join(&named));
        above.into_iter().find(|folder| is_marked(folder))
    };
    let found = of_program().or_else(of_libraries).or_else(of_variable);
    found.unwrap_or_else(|| here.join(&named))
}

fn is_marked(folder: &Path) -> bool {
    MARKS.iter().any(|mark| folder.join(mark).is_file())
}

/// Returns the nearest folder above this file that cargo has marked.
fn marked_above(file: &Path) -> Option<PathBuf> {
    let above = file.ancestors().skip(1).take(LOOKED_AT);
    above
        .into_iter()
        .find(|folder| is_marked(folder))
        .map(Path::to_path_buf)
}

#[cfg(test)]
mod tests {
    use super::*;
    use std::fs;

    #[test]
    fn the_folder_is_the_nearest_that_is_marked() {
        let top = crate::temporary::path("marked");
        let target = top.join("built");
        let deps = target.join("x86_64-unknown-linux-gnu/debug/deps");
        fs::create_dir_all(&deps).unwrap();
        fs::write(top.join("CACHEDIR.TAG"), "").unwrap();
        fs::write(target.join(".rustc_info.json"), "").unwrap();
        assert_eq!(of_build(&deps.join("bus-1"), Path::new("/")), target);
        fs::remove_file(target.join(".rustc_info.json")).unwrap();
        assert_eq!(of_build(&deps.join("bus-1"), Path::new("/")), top);
        fs::remove_dir_all(&top).unwrap();
    }
}
