//! What is judged: what a call, a trace, a recording or a scan met on the independent board, and whether the draws met
//! each kind often enough; how long a channel waits; what each name of the header must be; and a shorter list where two
//! programs differ.

pub mod before_arming;
pub mod coverage;
pub mod digest;
pub mod figures;
pub mod history;
pub mod looks;
pub mod moments;
pub mod recording_kinds;
pub mod shortened;
pub mod waits;
