//! The functions that the page's worker calls (`page/src/worker/engine.js`).
//!
//! The worker asks for room for each input, writes it there, and calls a function. The function
//! takes the inputs, and returns 0: the answer is a list of parts then, which stay until the next
//! call. It returns 1 where there is no answer: then the one part says why. All numbers are little
//! endian.

use crate::engine::{self, Answer, Engine};
use crate::part::Part;
use crate::search::{Numbers, Wanted};
use crate::source::rw_findings::Stretches;
use std::cell::RefCell;

#[derive(Default)]
struct Module {
    engine: Engine,
    /// The text of the journal or of the names that is opened or taken next.
    text: Vec<u8>,
    inputs: Vec<Vec<u8>>,
    parts: Vec<Part>,
}

thread_local! {
    static MODULE: RefCell<Module> = RefCell::default();
}

/// The inputs of a call, in their order.
struct Inputs(std::vec::IntoIter<Vec<u8>>);

impl Inputs {
    /// The next one, which is empty if there is none.
    fn bytes(&mut self) -> Vec<u8> {
        self.0.next().unwrap_or_default()
    }

    fn words(&mut self) -> Vec<u32> {
        self.bytes()
            .chunks_exact(4)
            .map(|it| u32::from_le_bytes(it.try_into().expect("four bytes")))
            .collect()
    }

    fn longs(&mut self) -> Vec<u64> {
        self.bytes().chunks_exact(8).map(number).collect()
    }

    /// Sorted lists of numbers one after the other, and the index past each. The numbers have 32
    /// bits, or all of them 64.
    fn numbers(&mut self) -> Vec<Numbers> {
        let (bytes, ends) = (self.bytes(), self.words());
        let count = ends.last().map_or(0, |end| *end as usize);
        let width = bytes.len().checked_div(count).unwrap_or(0);
        let starts = [0].into_iter().chain(ends.iter().copied());
        starts
            .zip(&ends)
            .map(|(start, end)| &bytes[start as usize * width..*end as usize * width])
            .map(|list| list.chunks_exact(width.max(1)).map(number).collect())
            .map(Numbers::of)
            .collect()
    }
}

/// A number of up to 64 bits, as little endian bytes.
fn number(bytes: &[u8]) -> u64 {
    let bytes = bytes.iter().rev();
    bytes.fold(0, |number, byte| number << 8 | u64::from(*byte))
}

/// Calls the engine with the inputs that there are.
fn call(ask: impl FnOnce(&mut Engine, Inputs) -> Answer) -> u32 {
    MODULE.with_borrow_mut(|module| {
        module.parts = vec![];
        let inputs = Inputs(std::mem::take(&mut module.inputs).into_iter());
        let answer = ask(&mut module.engine, inputs);
        module.keep(answer)
    })
}

impl Module {
    /// Keeps an answer until the next call. Returns 0, or 1 if there is none.
    fn keep(&mut self, answer: Answer) -> u32 {
        let (parts, is_fault) = match answer {
            Ok(parts) => (parts, 0),
            Err(engine::Fault(why)) => (vec![why.into()], 1),
        };
        self.parts = parts;
        is_fault
    }
}

/// Calls the engine with the text that there is.
fn pass(take: impl FnOnce(&mut Engine, Vec<u8>) -> Answer) -> u32 {
    MODULE.with_borrow_mut(|module| {
        module.parts = vec![];
        let text = std::mem::take(&mut module.text);
        let answer = take(&mut module.engine, text);
        module.keep(answer)
    })
}

/// [`Engine::open`]: the text ([`text`]).
#[unsafe(no_mangle)]
pub extern "C" fn open() -> u32 {
    pass(Engine::open)
}

/// [`Engine::name`]: the text of a file of names ([`text`]).
#[unsafe(no_mangle)]
pub extern "C" fn name() -> u32 {
    pass(|engine, text| engine.name(&text))
}

/// Makes room, keeps it, and returns its address, or 0 if there is no memory for it.
fn make_room(len: usize, keep: impl FnOnce(&mut Module, Vec<u8>)) -> usize {
    let mut room = vec![];
    if room.try_reserve_exact(len).is_err() {
        return 0;
    }
    room.resize(len, 0);
    let address = room.as_mut_ptr() as usize;
    MODULE.with_borrow_mut(|module| keep(module, room));
    address
}

/// Makes room for the next input, and returns its address, or 0 if there is no memory for it.
#[unsafe(no_mangle)]
pub extern "C" fn input(len: usize) -> usize {
    make_room(len, |module, room| module.inputs.push(room))
}

/// The same for the text that is opened or taken next. It comes in pieces, and other calls may be
/// made between them.
#[unsafe(no_mangle)]
pub extern "C" fn text(len: usize) -> usize {
    MODULE.with_borrow_mut(|module| module.text = vec![]);
    make_room(len, |module, room| module.text = room)
}

/// How many parts the answer has.
#[unsafe(no_mangle)]
pub extern "C" fn parts() -> usize {
    MODULE.with_borrow(|module| module.parts.len())
}

fn part<R: Default>(index: usize, ask: impl FnOnce(&Part) -> R) -> R {
    MODULE.with_borrow(|module| module.parts.get(index).map(ask).unwrap_or_default())
}

/// The address of a part.
#[unsafe(no_mangle)]
pub extern "C" fn part_address(index: usize) -> usize {
    part(index, |part| part.address() as usize)
}

/// How many numbers a part has.
#[unsafe(no_mangle)]
pub extern "C" fn part_len(index: usize) -> usize {
    part(index, Part::len)
}

/// How many bytes each number of a part has.
#[unsafe(no_mangle)]
pub extern "C" fn part_width(index: usize) -> usize {
    part(index, Part::width)
}

/// Frees the answer, once it was read.
#[unsafe(no_mangle)]
pub extern "C" fn done() {
    MODULE.with_borrow_mut(|module| module.parts = vec![]);
}

/// Exports functions that ask the engine something of the inputs.
macro_rules! exports {
    ($($(#[$doc:meta])* $name:ident = $ask:expr;)*) => {
        $(
            $(#[$doc])*
            #[unsafe(no_mangle)]
            pub extern "C" fn $name() -> u32 {
                call($ask)
            }
        )*
    };
}

exports! {
    /// [`Engine::states`]: places of 64 bits.
    states = |engine, mut it| engine.states(&it.longs());
    /// [`Engine::ask`]: commands.
    ask = |engine, mut it| engine.ask(&it.bytes());
    /// [`Engine::losses`].
    losses = |engine, _| engine.losses();
    /// [`Engine::found`].
    found = |engine, _| engine.found();
    /// [`Engine::account`].
    account = |engine, _| engine.account();
    /// [`Engine::against`]: the journal text of the other run, and the text of its file of names.
    against = |engine, mut it| engine.against(&it.bytes(), &it.bytes());
    /// [`Engine::levels`]: the numbers of the channels, a byte each; and as numbers of 64 bits the
    /// first place, how many each stretch has, and how many stretches there are.
    levels = |engine, mut it| {
        let channels = it.bytes();
        let [from, each, count] = it.longs().try_into().unwrap_or_default();
        engine.levels(&channels, Stretches { from, each, count })
    };
    /// [`Engine::search`]: the text of a file of names that has what calls are written by, and the
    /// fields of [`Wanted`] in their order.
    search = |engine, mut it| engine.search(&it.bytes(), &Wanted {
        text: it.bytes(),
        actors: it.bytes(),
        channels: it.bytes(),
        located: it.bytes(),
        handles: it.numbers(),
        values: it.numbers(),
    });
    /// [`engine::debug`]: a journal text, and commands.
    debug = |_, mut it| engine::debug(&it.bytes(), &it.bytes());
    /// [`engine::session`]: a script, a line `---`, and commands.
    session = |_, mut it| engine::session(&it.bytes());
    /// [`engine::salvage`]: a journal text.
    salvage = |_, mut it| engine::salvage(&it.bytes());
}
