//! How the handles of a watch are formatted: as tokio's own, part by part.

use super::WatchHandle;
use super::version::SeenVersion;
use crate::channels::handle::Kind;
use std::fmt::{self, Debug};
use std::sync;

// The names are those of tokio's types, which `Debug` writes.

#[derive(Debug)]
#[expect(dead_code)]
struct Sender<'a, T> {
    shared: Shared<'a, T>,
}

#[derive(Debug)]
#[expect(dead_code)]
struct Receiver<'a, T> {
    shared: Shared<'a, T>,
    version: Version,
}

#[derive(Debug)]
#[expect(dead_code)]
struct Shared<'a, T> {
    value: RwLock<'a, T>,
    version: Version,
    is_closed: bool,
    ref_count_rx: usize,
}

/// A value that a sender has locked is `<locked>`.
#[derive(Debug)]
#[expect(dead_code)]
struct RwLock<'a, T>(&'a sync::RwLock<T>);

#[derive(Debug)]
#[expect(dead_code)]
struct Version(usize);

impl<T: Debug> WatchHandle<T> {
    /// Formats a handle. A receiver says what it has seen.
    pub(super) fn fmt(
        &self,
        f: &mut fmt::Formatter<'_>,
        seen: Option<&SeenVersion>,
    ) -> fmt::Result {
        let values = &self.channel.values;
        let (version, is_closed) = values.version.now();
        let shared = Shared {
            value: RwLock(values.value()),
            version: Version(version),
            is_closed,
            ref_count_rx: self.alive(Kind::Receiver),
        };
        match seen.map(|seen| Version(seen.number())) {
            Some(version) => Receiver { shared, version }.fmt(f),
            None => Sender { shared }.fmt(f),
        }
    }
}

#[cfg(test)]
mod tests {
    use crate::watch;

    #[test]
    fn handles_are_formatted_as_tokio_s() {
        let (tx, rx) = watch::channel("log = info");
        tx.send("log = debug").unwrap();
        let shared = |data, is_closed| {
            format!(
                "shared: Shared {{ value: RwLock(RwLock {{ data: {data}, poisoned: false, .. }}), version: Version(2), is_closed: {is_closed}, ref_count_rx: 1 }}"
            )
        };
        let debug = shared("\"log = debug\"", false);
        assert_eq!(format!("{tx:?}"), format!("Sender {{ {debug} }}"));
        let unseen = format!("Receiver {{ {debug}, version: Version(0) }}");
        assert_eq!(format!("{rx:?}"), unseen);
        tx.send_if_modified(|_| {
            let locked = format!("Sender {{ {} }}", shared("<locked>", false));
            assert_eq!(format!("{tx:?}"), locked);
            false
        });
        drop(tx);
        let closed = shared("\"log = debug\"", true);
        let unseen = format!("Receiver {{ {closed}, version: Version(0) }}");
        assert_eq!(format!("{rx:?}"), unseen);
    }
}
