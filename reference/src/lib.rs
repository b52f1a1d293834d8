//! The second, independent program: the host end of the Serial API link, and
//! the stand-in for a module, written from documents 01 and 02 alone, in plain
//! Rust. The proved code is compared with it, so nothing here is taken from the
//! proved code.
//!
//! The files are named for the sections of document 01.

pub mod bodies;
pub mod choice;
pub mod dice;
pub mod ends;
pub mod frame;
pub mod linecount;
pub mod link;
pub mod mode_scenes;
pub mod module_scenes;
pub mod other_scenes;
pub mod play;
pub mod random;
pub mod reception;
pub mod refusal;
pub mod report;
pub mod scenes;
pub mod scribe;
pub mod script;
pub mod sending;
pub mod session;
pub mod stream;
pub mod wire_scenes;
pub mod writer_scenes;
pub mod writers;
