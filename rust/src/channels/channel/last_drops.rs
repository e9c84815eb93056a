//! Where a channel's last sender and its last receiver were dropped. A drop has no caller that the
//! compiler tells, so the stack at that moment is kept, which is read when a report is written.
//!
//! To walk a stack takes as long as making twenty channels. So stacks are kept by their return
//! addresses, and one that is there is only compared.

use crate::channels::handle::Kind;
use crate::channels::lock::lock;
use crate::channels::whereabouts::{StackStart, address_of};
use std::backtrace::Backtrace;
use std::collections::VecDeque;
use std::hint::black_box;
use std::sync::atomic::{AtomicUsize, Ordering};
use std::sync::{Arc, Mutex};

/// How many stacks a process keeps. A test that closes very many channels is not slowed by more.
const MOST_STACKS: usize = 1000;

/// With how many stacks a new one is compared: those that were there last.
const COMPARED_STACKS: usize = 32;

/// How many stacks are kept.
static KEPT: AtomicUsize = AtomicUsize::new(0);

static COMPARED: Mutex<VecDeque<(StackStart, Arc<DropStack>)>> = Mutex::new(VecDeque::new());

/// A stack that is kept, until no channel has it that is in a run, and none is compared with it.
#[derive(Debug)]
pub(crate) struct DropStack(Backtrace);

impl DropStack {
    /// Keeps the stack of this thread, if one more is kept.
    #[cold]
    fn keep() -> Option<Arc<DropStack>> {
        if KEPT.fetch_add(1, Ordering::Relaxed) < MOST_STACKS {
            return Some(Arc::new(DropStack(Backtrace::force_capture())));
        }
        KEPT.fetch_sub(1, Ordering::Relaxed);
        None
    }
}

impl Drop for DropStack {
    fn drop(&mut self) {
        KEPT.fetch_sub(1, Ordering::Relaxed);
    }
}

/// The stacks of these drops, as far as they are kept.
#[derive(Clone, Debug, Default)]
pub(crate) struct DropStacks {
    sender: Option<Arc<DropStack>>,
    receiver: Option<Arc<DropStack>>,
}

impl DropStacks {
    pub(super) const NONE: DropStacks = DropStacks {
        sender: None,
        receiver: None,
    };

    /// Returns the stack of this thread, if it is kept.
    // It has one frame wherever it is called.
    #[inline(never)]
    pub(super) fn stack() -> Option<Arc<DropStack>> {
        let mark = 0;
        let mark = black_box(address_of(&mark));
        let mut compared = lock(&COMPARED);
        if let Some((_, kept)) = compared.iter().find(|(stack, _)| stack.is_from(mark)) {
            return Some(kept.clone());
        }
        let kept = DropStack::keep()?;
        let left = StackStart::from(mark).and_then(|stack| {
            compared.push_front((stack, kept.clone()));
            (compared.len() > COMPARED_STACKS).then(|| compared.pop_back())
        });
        drop(compared);
        drop(left);
        Some(kept)
    }

    /// Notes that the last handle of this kind was dropped there.
    pub(super) fn note(&mut self, kind: Kind, stack: Arc<DropStack>) {
        let stack = Some(stack);
        match kind {
            Kind::Sender => self.sender = stack,
            Kind::Receiver => self.receiver = stack,
            // It keeps no channel open.
            Kind::WeakSender => {}
        }
    }

    /// Returns the stack of the drop of the last sender, and that of the last receiver.
    pub(crate) fn stacks(&self) -> [Option<&Backtrace>; 2] {
        [&self.sender, &self.receiver].map(|stack| stack.as_ref().map(|stack| &stack.0))
    }
}

#[cfg(all(test, target_os = "linux", target_arch = "x86_64", not(miri)))]
mod tests {
    use super::*;

    #[inline(never)]
    fn here() -> Arc<DropStack> {
        black_box(DropStacks::stack()).unwrap()
    }

    #[test]
    fn a_stack_that_no_channel_has_is_given_back() {
        for _ in 0..MOST_STACKS + 10 {
            assert!(DropStack::keep().is_some());
        }
    }

    #[test]
    fn a_stack_is_kept_once() {
        let mut all = Vec::new();
        for _ in 0..2 * MOST_STACKS {
            all.push(here());
        }
        let other = here();
        assert!(all.iter().all(|it| Arc::ptr_eq(it, &all[0])));
        assert!(!Arc::ptr_eq(&other, &all[0]), "from another line");
        let text = all[0].0.to_string();
        assert!(text.contains("a_stack_is_kept_once"));
    }
}
