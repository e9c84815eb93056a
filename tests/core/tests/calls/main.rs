//! Tests of calls: of channels, handles, rings and those who wait, as books and ledgers record them and walks undo them, by passes, desks and seats,
//! in one thread and in several, and of scripts that threads play.
//!
//! Each says what is called and what is answered, from the channels' documentation and not from the code.

mod cell;
mod channels;
mod desks;
mod flags;
mod handles;
mod journals;
mod rings;
mod seats;
mod threads;
mod waiting;
mod walks;
