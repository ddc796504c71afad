//! The product: the archive under test, called as a C program calls it; and boards that a simulator holds, stepped beside
//! independent ones.

#[allow(clippy::module_inception)]
mod archive;
pub mod lent;
pub mod stepped;
pub mod stepping;

pub use archive::{
    answer_of, code, corrected, load, load_bytes_max, play, replay, window, Player, OLD_PLAYER,
};
