//! A second program for the transaction core of document 01 with requests #102
//! (who is in the way) and #103 (ignoring loses no update) of document 02, for
//! the wear task of request #101 on top of it, and for the effect traces of
//! request #104.
//!
//! It shares no code and no data structure with the core it is compared with:
//! a slot is idle or has a [`Transaction`], the holder of a cell is worked out
//! from the transactions instead of being stored, and the packed area exists
//! only while it is read or written.
//!
//! - [`Machine`] is the state; [`Machine::step`] makes one step.
//! - [`Machine::pack`] and [`Machine::unpack`] go to and from the area's bytes.
//! - [`step_on_bytes`] and [`lay_out_on_bytes`] are the two functions that a
//!   C runtime calls.
//! - [`wear_on_bytes`] is the wear task on top of them, made of steps.
//! - [`step_in_place`] and [`wear_in_place`] make the same on the bytes
//!   themselves, as a yardstick of time, and [`fuzz`] compares a library with
//!   this one.
//! - [`Sheet`] is a step sheet, with a binary form and a [`text`] form; [`run`]
//!   makes its output and [`trace`] the effects of its run. [`compare`] compares
//!   a program for each of the two with them, and [`Timeline`] draws the run.

#![forbid(unsafe_code)]
#![warn(missing_docs)]

pub mod area;
pub mod binary;
pub mod call;
pub mod compare;
pub mod counting;
pub mod forms;
pub mod fuzz;
pub mod generate;
pub mod inplace;
pub mod machine;
pub mod random;
pub mod run;
pub mod text;
pub mod timeline;
pub mod trace;
pub mod value;
pub mod wear;
pub mod wellformed;

mod apart;
mod bytes;
mod counts;
mod filling;
mod ignores;
mod obstacles;
mod record;
mod searches;
mod steps;
mod wear_set;

pub use area::{area_length, lay_out_on_bytes, step_on_bytes};
pub use binary::{describe, BadSheet, Sheet};
pub use call::{Call, Refusal, Reply, Step};
pub use inplace::{step_in_place, wear_in_place};
pub use machine::{Cell, Commit, Machine, Phase, Read, Transaction, Write};
pub use random::Random;
pub use text::TextError;
pub use timeline::Timeline;
pub use value::{Kind, Value};
pub use wear::{wear_on_bytes, WearRefusal};
pub use wellformed::{faults, well_formed};
