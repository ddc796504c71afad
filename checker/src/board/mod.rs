//! The independent program: a virtual PMC330 made from the manuals and the rules of the board, never from the
//! definitions of `crates/`. The board stands here twice, from event to event (`Board`) and tick by tick (`logbook`);
//! beside it are codes and the two-point correction, the running average, the load, and traces with their player and
//! their replay.

pub mod analog;
#[allow(clippy::module_inception)]
mod board;
pub mod call;
pub mod fraction;
pub mod load;
pub mod logbook;
pub mod registers;
pub mod replay;
pub mod trace;
pub mod window;

pub use board::{
    Board, Cycle, BURST_STEP, CONVERSION, HIGHEST_INPUT, LONGEST_ADVANCE, LOWEST_INPUT,
};
