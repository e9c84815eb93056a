//! The return addresses on a stack: two clones of a waker at one place have the same.
//!
//! An unwinder walks them, which takes some microseconds. So a walk is remembered, where each
//! return address says how large the frame of its function is: then equal return addresses in
//! equal places mean the same calls, by induction from the innermost one. To compare them takes a
//! fraction of a walk.
#![allow(unsafe_code)]

/// How many frames a walk has at most.
const MOST_FRAMES: usize = 96;

/// A return address, and by how many bytes its place is above the mark of the walk.
#[derive(Clone, Copy, Debug, PartialEq, Eq)]
pub(super) struct Return {
    above: u32,
    to: usize,
}

/// The return addresses of this thread, from the frame that has the mark up to another frame or to
/// the end of the stack.
pub(super) struct StackWalk {
    /// A number for them.
    pub(super) key: u64,
    returns: [Return; MOST_FRAMES],
    count: usize,
    // Whether the frames up to here can be compared.
    is_fixed: bool,
    // How many frames can be, from the innermost one on.
    fixed_count: usize,
    // The frame pointer in the last frame.
    frame_pointer: usize,
    mark: usize,
    limit: usize,
}

/// Returns the address of a value of the caller's frame. The caller must not be inlined, and has
/// the same frame whenever it is called.
#[inline(always)]
pub(crate) fn address_of(mark: &u8) -> usize {
    std::ptr::from_ref(mark).addr()
}

impl StackWalk {
    /// Walks from the frame that has `mark`, which is the caller's or one around it, up to the one
    /// that has `limit`. There is none where addresses can't be walked.
    #[cfg(all(unix, not(target_arch = "arm"), not(miri)))]
    pub(super) fn from(mark: usize, limit: Option<usize>) -> Option<StackWalk> {
        unwinder::walk(StackWalk::new(mark, limit.unwrap_or(usize::MAX)))
    }

    #[cfg(not(all(unix, not(target_arch = "arm"), not(miri))))]
    pub(super) fn from(_mark: usize, _limit: Option<usize>) -> Option<StackWalk> {
        None
    }

    #[cfg_attr(not(all(unix, not(target_arch = "arm"), not(miri))), allow(dead_code))]
    fn new(mark: usize, limit: usize) -> StackWalk {
        StackWalk {
            key: 0,
            returns: [Return { above: 0, to: 0 }; MOST_FRAMES],
            count: 0,
            is_fixed: true,
            fixed_count: 0,
            frame_pointer: 0,
            mark,
            limit,
        }
    }

    /// Adds the next frame by the address to which it is returned, its stack pointer then and its
    /// frame pointer. Returns whether the walk goes on.
    #[cfg_attr(not(all(unix, not(target_arch = "arm"), not(miri))), allow(dead_code))]
    fn add(&mut self, to: usize, stack_pointer: usize, frame_pointer: usize) -> bool {
        if stack_pointer > self.mark {
            // The frame before has kept its frame pointer just below this one, as functions do
            // whose frames have no size that is fixed.
            self.is_fixed &= self.frame_pointer != stack_pointer.wrapping_sub(2 * WORD);
            if stack_pointer > self.limit || self.count == MOST_FRAMES {
                return false;
            }
            let at = stack_pointer - WORD;
            let above = u32::try_from(at - self.mark);
            self.is_fixed &= above.is_ok() && word_at(at) == Some(to);
            self.returns[self.count] = Return {
                above: above.unwrap_or(0),
                to,
            };
            self.count += 1;
            self.fixed_count += usize::from(self.is_fixed);
            let key = self.key.rotate_left(5) ^ to as u64;
            self.key = key.wrapping_mul(0x517c_c1b7_2722_0a95);
        }
        self.frame_pointer = frame_pointer;
        true
    }

    /// Returns the return addresses, if they can be compared with those of other stacks.
    pub(super) fn to_compare(&self) -> Option<&[Return]> {
        let is_whole = self.limit != usize::MAX && self.count < MOST_FRAMES;
        (self.is_fixed && is_whole && self.count > 0).then(|| &self.returns[..self.count])
    }

    /// Returns the first return addresses, as far as they can be compared with those of other
    /// stacks.
    fn fixed(&self) -> &[Return] {
        &self.returns[..self.fixed_count]
    }
}

/// The return addresses of a stack from the innermost one on, with which others are compared. They
/// end where the standard library calls a thread's function or a test, since its frames say nothing
/// of their size.
pub(crate) struct StackStart(Box<[Return]>);

/// How many return addresses there are at least. Fewer may be of this crate alone.
const LEAST_COMPARED: usize = 4;

impl StackStart {
    /// Returns those from the frame that has `mark` on, which is the caller's, if they can be
    /// compared.
    pub(crate) fn from(mark: usize) -> Option<StackStart> {
        let walk = StackWalk::from(mark, None)?;
        let fixed = walk.fixed();
        (fixed.len() >= LEAST_COMPARED).then(|| StackStart(fixed.into()))
    }

    /// Whether the stack from this mark on begins so. The mark is that of the same function.
    pub(crate) fn is_from(&self, mark: usize) -> bool {
        has_returns(mark, &self.0)
    }
}

const WORD: usize = size_of::<usize>();

/// Whether the stack from this mark on has these return addresses, which an earlier walk has found
/// from the same mark of the same function.
pub(super) fn has_returns(mark: usize, returns: &[Return]) -> bool {
    let mut index = 0;
    // An iterator takes three times as long in a build that isn't optimised.
    while index < returns.len() {
        let it = returns[index];
        // Those before are equal, and so are their frames: this is where the next one is.
        if word_at(mark + it.above as usize) != Some(it.to) {
            return false;
        }
        index += 1;
    }
    true
}

/// Returns a word of this thread's stack, which has a return address there, where return addresses
/// are pushed by calls.
#[inline(always)]
fn word_at(_at: usize) -> Option<usize> {
    #[cfg(all(unix, target_arch = "x86_64", target_pointer_width = "64", not(miri)))]
    {
        let word: usize;
        // SAFETY: the caller has found that the word is on this thread's stack. It is read by an
        // instruction, since it belongs to no value.
        unsafe {
            std::arch::asm!(
                "mov {word}, qword ptr [{at}]",
                at = in(reg) _at,
                word = lateout(reg) word,
                options(nostack, readonly, preserves_flags)
            );
        }
        Some(word)
    }
    #[cfg(not(all(unix, target_arch = "x86_64", target_pointer_width = "64", not(miri))))]
    None
}

#[cfg(all(unix, not(target_arch = "arm"), not(miri)))]
mod unwinder {
    use super::StackWalk;
    use std::ffi::{c_int, c_void};

    /// The number of the frame pointer among the registers. Others than those of x86-64 aren't
    /// asked for.
    #[cfg(target_arch = "x86_64")]
    const FRAME_POINTER: c_int = 6;

    // The standard library is linked with these, and catches panics by them. The callback is given
    // a context that is valid while it runs.
    unsafe extern "C-unwind" {
        fn _Unwind_Backtrace(
            each: extern "C-unwind" fn(*mut c_void, *mut c_void) -> c_int,
            argument: *mut c_void,
        ) -> c_int;
        fn _Unwind_GetIP(context: *mut c_void) -> usize;
        fn _Unwind_GetCFA(context: *mut c_void) -> usize;
        #[cfg(target_arch = "x86_64")]
        fn _Unwind_GetGR(context: *mut c_void, register: c_int) -> usize;
    }

    /// Adds a frame. Any result but 0 ends the walk.
    extern "C-unwind" fn each(context: *mut c_void, walk: *mut c_void) -> c_int {
        // SAFETY: the second argument is the one that `_Unwind_Backtrace` is given below, and
        // nothing else refers to it meanwhile.
        let walk = unsafe { &mut *walk.cast::<StackWalk>() };
        // SAFETY: the context is that of the current frame.
        let (to, stack_pointer) = unsafe { (_Unwind_GetIP(context), _Unwind_GetCFA(context)) };
        #[cfg(target_arch = "x86_64")]
        // SAFETY: the same, and the register is one that each frame has.
        let frame_pointer = unsafe { _Unwind_GetGR(context, FRAME_POINTER) };
        #[cfg(not(target_arch = "x86_64"))]
        let frame_pointer = 0;
        c_int::from(!walk.add(to, stack_pointer, frame_pointer)) * 5
    }

    pub(super) fn walk(mut walk: StackWalk) -> Option<StackWalk> {
        // SAFETY: the callback has the type that is asked for, and doesn't unwind. The argument
        // lives longer than the call.
        unsafe { _Unwind_Backtrace(each, (&raw mut walk).cast()) };
        Some(walk)
    }
}

#[cfg(all(test, target_os = "linux", target_arch = "x86_64", not(miri)))]
mod tests {
    use super::*;
    use std::hint::black_box;

    /// Walks up to the frame that has `limit`. A walk that is given is compared with this stack.
    #[inline(never)]
    fn walk(limit: usize, other: Option<&StackWalk>) -> (StackWalk, bool) {
        let mark = 0;
        let mark = black_box(address_of(&mark));
        let has = other.is_some_and(|other| has_returns(mark, other.to_compare().unwrap()));
        (StackWalk::from(mark, Some(limit)).unwrap(), has)
    }

    #[inline(never)]
    fn once(limit: usize, other: Option<&StackWalk>) -> (StackWalk, bool) {
        black_box(walk(limit, other))
    }

    #[inline(never)]
    fn over_aligned(limit: usize) -> StackWalk {
        #[repr(align(128))]
        struct Aligned([u8; 128]);
        let value = black_box(Aligned([1; 128]));
        let found = walk(limit, None).0;
        black_box(value.0[black_box(7)]);
        found
    }

    #[test]
    fn one_place_has_the_same_returns_and_two_have_others() {
        let limit = 0;
        let limit = black_box(address_of(&limit));
        let mut before = None;
        let mut keys = vec![];
        for turn in 0..3 {
            let (found, has) = once(limit, before.as_ref());
            assert!(found.to_compare().is_some());
            assert_eq!(has, turn > 0);
            keys.push(found.key);
            before = Some(found);
        }
        assert_eq!(keys, [keys[0]; 3]);
        // The same functions from another line, and another function between.
        let (other, has) = once(limit, before.as_ref());
        assert!(!has && other.key != keys[0]);
        let (other, has) = black_box(walk(limit, before.as_ref()));
        assert!(!has && other.key != keys[0]);
    }

    #[test]
    fn a_walk_with_a_frame_of_no_fixed_size_is_not_compared() {
        let limit = 0;
        let limit = black_box(address_of(&limit));
        assert!(once(limit, None).0.to_compare().is_some());
        let found = over_aligned(limit);
        assert!(found.key != 0 && found.to_compare().is_none());
    }

    /// Returns the start of the stack, and whether another one is the same.
    #[inline(never)]
    fn start(other: Option<&StackStart>) -> (StackStart, bool) {
        let mark = 0;
        let mark = black_box(address_of(&mark));
        let is_same = other.is_some_and(|other| other.is_from(mark));
        (StackStart::from(mark).unwrap(), is_same)
    }

    #[test]
    fn starts_of_stacks_are_compared_also_those_of_two_threads() {
        let mut before = None;
        for turn in 0..3 {
            let thread = std::thread::spawn(move || {
                let mut seen = Vec::new();
                for _ in 0..2 {
                    let (stack, is_same) = start(before.as_ref());
                    seen.push(is_same);
                    before = Some(stack);
                }
                let other = start(before.as_ref()).1;
                (seen, other, before)
            });
            let (seen, other, stack) = thread.join().unwrap();
            assert_eq!(seen, [turn > 0, true]);
            assert!(!other, "it is called from another line");
            before = stack;
        }
    }

    #[test]
    fn a_walk_to_the_end_of_the_stack_is_not_compared() {
        let mark = 0;
        let found = StackWalk::from(black_box(address_of(&mark)), None).unwrap();
        assert!(found.count > 0 && found.to_compare().is_none());
    }
}
