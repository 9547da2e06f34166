//! What the programs that are linked with the proved library share.

#![deny(unsafe_code)]
#![warn(missing_docs)]

pub mod busy;
pub mod cases;
#[allow(unsafe_code)]
pub mod library;
pub mod stage;
