//! The recorders that write a dump when a thread panics.

use crate::channels::lock::try_lock_for;
use crate::channels::recorder::{DumpRequest, NotedPanic, PATIENCE, Shared};
use std::panic::PanicHookInfo;
use std::sync::{Arc, Mutex, Weak};
use std::thread;
use std::time::Duration;
use yovanelum_record::listed::{IntoList, Keep};

/// How long a process that ends waits for a dump.
const LONGEST: Duration = Duration::from_secs(5);

static FOLLOWING: Mutex<Vec<Weak<Shared>>> = Mutex::new(Vec::new());

/// Writes a dump of this recorder at each panic from now on.
pub(super) fn follow(recorder: &Arc<Shared>) {
    let mut following = crate::channels::lock::lock(&FOLLOWING);
    following.keep(|other| other.strong_count() > 0);
    if !following
        .iter()
        .any(|other| other.as_ptr() == Arc::as_ptr(recorder))
    {
        following.push(Arc::downgrade(recorder));
    }
}

/// Begins the dumps that a panic calls for. Where the process may end with it, it waits for them. A
/// panic in here would end the process.
pub(in crate::harness) fn dump_on_panic(info: &PanicHookInfo<'_>, is_last: bool) {
    let is_main = thread::current().name() == Some("main");
    let ends_process = is_main || is_last || cfg!(panic = "abort");
    let following = try_lock_for(&FOLLOWING, PATIENCE);
    let following: Vec<_> = following.map_or_else(Vec::new, |following| following.clone());
    let following = following.iter().filter_map(Weak::upgrade);
    let dumps: Vec<_> = following
        .filter_map(|recorder| {
            let panic = NotedPanic::of(info, &recorder);
            DumpRequest::on_panic(&recorder, panic, ends_process)
        })
        .listed();
    if ends_process {
        for dump in dumps {
            dump.0.is_closed_within(LONGEST);
        }
    }
}
