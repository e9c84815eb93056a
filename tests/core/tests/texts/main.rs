//! Tests of books and runs of worlds, words, scripts, journal texts, sessions, and what the program makes of files.
//!
//! What a run of the program shows as bytes is tested in `tests/program`. What is returned, shown or written comes from the
//! documentation, not from the code. `texts/rows.rs` has a script for each worked row of the channels.

mod devices;
mod findings;
mod flights;
mod journals;
mod lines;
mod programs;
mod recordings;
mod scripts;
mod sessions;
mod shared;
mod texts;
mod tokens;
mod values;
mod words;
mod worlds;
