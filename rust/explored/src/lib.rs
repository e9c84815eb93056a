//! The programs are tests.
