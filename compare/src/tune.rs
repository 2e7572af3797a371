//! The Rust that the port replaces: its own files, unchanged, from the `shared` folder that stands beside the repository.
#![allow(clippy::all)]

#[path = "../../../shared/docs/src/key.rs"]
pub mod key;
#[path = "../../../shared/docs/src/math.rs"]
pub mod math;
#[path = "../../../shared/docs/src/midi.rs"]
pub mod midi;
#[path = "../../../shared/docs/src/mts.rs"]
pub mod mts;
#[path = "../../../shared/docs/src/note.rs"]
pub mod note;
mod parse;
#[path = "../../../shared/docs/src/pitch.rs"]
pub mod pitch;
#[path = "../../../shared/docs/src/tuner/mod.rs"]
pub mod tuner;
#[path = "../../../shared/docs/src/tuning.rs"]
pub mod tuning;
