//! The program's part of the shim, clause by clause: by cases, beside plain models in random order,
//! and with each request for memory refused.

#[path = "../../../tests/support/random.rs"]
mod random;
#[path = "../../../tests/support/refusing.rs"]
mod refusing;

mod ends;
mod json;
mod locks;
mod maps;
mod streams;
mod threads;
mod words_and_files;

#[global_allocator]
static ALLOCATOR: refusing::Refusing = refusing::Refusing;
