//! What is drawn: lists of calls, traces, recordings, scans that run long enough to be measured, and structs of any
//! bytes. All come from a small generator with a fixed seed, so that a failure can be drawn again by its seed and
//! number. Short lists are not drawn, but made one and all.

pub mod any_bytes;
pub mod continuous;
pub mod generator;
pub mod made_up;
pub mod one_kind;
pub mod random;
pub mod recordings;
pub mod short_lists;
pub mod stored;
