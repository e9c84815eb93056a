//! The program: its words, what it makes of files, and its statuses.

mod endings;
mod files;
mod statuses;
mod words;
