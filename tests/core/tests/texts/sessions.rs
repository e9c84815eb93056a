//! Sessions: devices that fail, and input without end.

mod devices;
mod limits;
