//! The frame maker: frames of every shape, valid and damaged, and TCP option slices, reproducibly.
//!
//! [`Frames`] and [`OptionSlices`] draw endlessly from a seed. [`every_short`] counts through every
//! slice of up to three bytes. [`edges()`], [`sweeps`] and [`option_edges`] are finite and
//! structured. Nothing here judges a frame: that is for whoever compares two answers to it.
#![forbid(unsafe_code)]
#![warn(missing_docs)]

mod chain;
mod compose;
mod damage;
mod draft;
pub mod edges;
mod entry;
mod link;
mod net;
mod odometer;
mod options;
mod parts;
mod random;
mod rng;
mod short;
mod sweep;
mod transport;

pub use edges::edges;
pub use entry::{Case, Entry};
pub use options::{option_edges, OptionSlices};
pub use random::Frames;
pub use rng::Rng;
pub use short::{every_short, every_short_frame, Short};
pub use sweep::{samples, sweeps};
