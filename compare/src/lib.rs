//! A planner for pebbles on trees that shares no line with the proved library: written from the
//! source paper (document 000, Algorithms 1 to 4), document 01 and the requests (document 02)
//! alone, plain and without speed in mind. The program `compare` holds the library against it.
//!
//! `fast` is the same planner written for speed, for the benchmark. `random`, `shapes` and `damage`
//! make the inputs; equal seeds make equal inputs. `fitter` has sheets as lines. `piped` runs a
//! program on inputs.

pub mod c_calls;
pub mod cabinet;
pub mod check_sheet;
pub mod checker;
pub mod damage;
pub mod demands;
pub mod distance;
pub mod event;
pub mod fast;
pub mod figures;
pub mod fitter;
pub mod follow;
// A list on a line, as in the header.
#[cfg(feature = "library")]
#[rustfmt::skip]
pub mod library;
pub mod openings;
pub mod parts;
pub mod piped;
pub mod planner;
pub mod random;
pub mod report;
pub mod shapes;
pub mod sheet;
pub mod shortest;
pub mod wear;
pub mod yard;
