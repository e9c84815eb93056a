//! Files and names that no other process has.

use std::path::{Path, PathBuf};
use std::{env, fs, process};

/// The number of this process. WebAssembly has none, and each test program is alone there.
fn number() -> u32 {
    if cfg!(target_family = "wasm") {
        0
    } else {
        process::id()
    }
}

/// A name that no other process has.
pub fn name(of: &str) -> String {
    format!("{of}-{}", number())
}

/// A path in the folder of temporary files, which WebAssembly finds in the variable `TMPDIR` alone.
pub fn path(file: &str) -> PathBuf {
    let folder = if cfg!(target_family = "wasm") {
        PathBuf::from(env::var_os("TMPDIR").unwrap())
    } else {
        env::temp_dir()
    };
    folder.join(format!("yovanelum-{}-{file}", number()))
}

/// The path of a folder that isn't there, also where an earlier run has left one.
pub fn fresh(folder: &str) -> PathBuf {
    let folder = path(folder);
    let _ = fs::remove_dir_all(&folder);
    folder
}

/// Returns the names of the files in a folder, in order. One that isn't there has none.
pub fn files_in(folder: &Path) -> Vec<String> {
    let files = fs::read_dir(folder).into_iter().flatten();
    let names = files.map(|file| file.unwrap().file_name().into_string().unwrap());
    let mut names: Vec<_> = names.collect();
    names.sort();
    names
}
