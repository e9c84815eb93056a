//! Names of channels and receivers that nobody gave, from the sources that create them: under
//! `cargo yovanelum`, a report calls them as the test does. A name that was given wins, and where
//! the source says none, the report has the place.

mod binding;

use crate::harness::program::Program;
use binding::Bound;
use std::fs;
use std::path::Path;
use yovanelum_core::source::rw_handles::Kind;
use yovanelum_record::by_text::TextMap;
use yovanelum_record::journal::Run;
use yovanelum_record::numbered::NumberMap;
use yovanelum_record::sidecar::{Sidecar, SourceLocation};

/// Sources that were read, by their names. `None` for one that can't be read, or that was written
/// after the program.
#[derive(Default)]
struct Sources(TextMap<Option<String>>);

impl Sources {
    fn bound(&mut self, root: &Path, at: &SourceLocation) -> Option<Bound> {
        let read = || {
            let path = root.join(&at.file);
            let written = |path: &Path| fs::metadata(path).and_then(|file| file.modified()).ok();
            if written(&path)? > written(&Program::this().path)? {
                return None;
            }
            fs::read_to_string(&path).ok()
        };
        let text = self.0.get_or_insert_with(&at.file, read);
        binding::bound(text.as_ref()?, at.line, at.column)
    }
}

/// Adds the names that the sources give to what has none.
pub(super) fn add(names: &mut Sidecar, run: &Run) {
    let root = Program::this().root_of(&[]).unwrap_or_default();
    let mut sources = Sources::default();
    let mut channels = NumberMap::new();
    let made = names.made.clone();
    // Without memory for it, later receivers have no names.
    let traffic = run
        .traffic(&vec![true; run.specs().len()])
        .unwrap_or_default();
    for (channel, handles) in &made {
        let of_channel = traffic.get(*channel as usize).and_then(Option::as_ref);
        let is_receiver = |handle: u64| {
            let life = of_channel.and_then(|traffic| traffic.lives().get(handle as usize));
            life.is_some_and(|life| life.kind() == Kind::Receiver)
        };
        let mut receivers = NumberMap::new();
        for (handle, location) in handles {
            let at = names.locations.get(*location);
            let Some(bound) = at.and_then(|at| sources.bound(&root, at)) else {
                continue;
            };
            match handle {
                0 => channels.extend(bound.first.map(|name| (*channel, name))),
                // The receiver with which a channel is created.
                1 => receivers.extend(bound.second.map(|name| (1, name))),
                _ if is_receiver(*handle) => {
                    receivers.extend(bound.first.map(|name| (*handle, name)))
                }
                // A sender goes by the name of its channel.
                _ => {}
            }
        }
        tell_apart(receivers.values_mut());
        let own = names.handles.get_or_default(*channel);
        receivers.into_iter().for_each(|(handle, name)| {
            own.get_or_insert_with(handle, || name);
        });
    }
    names.handles.retain(|_, own| !own.is_empty());
    tell_apart(channels.values_mut());
    for (channel, name) in channels {
        names.channels.get_or_insert_with(channel, || name);
    }
}

/// Numbers those after the first that have the same name.
fn tell_apart<'a>(names: impl Iterator<Item = &'a mut String>) {
    let mut seen: TextMap<usize> = TextMap::new();
    for name in names {
        let count = seen.get_or_default(name);
        *count += 1;
        if *count > 1 {
            *name = format!("{name}#{count}");
        }
    }
}
