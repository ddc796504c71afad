//! The other program: a virtual PMC330 made from the manuals and the rules of the board, never from the definitions of
//! `crates/`, to be compared with the archive.

// A remainder is as plain as `is_multiple_of`, and older compilers know it.
#![allow(clippy::manual_is_multiple_of)]

pub mod archive;
pub mod board;
pub mod cases;
pub mod draw;
pub mod judge;
