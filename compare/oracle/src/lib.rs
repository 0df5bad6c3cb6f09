//! The oracle: a frame slicer written from document 01 and the RFCs alone, to compare answers with.
//!
//! "If it can't be had whole, an independent Rust program written from these rules stands in"
//! (document 01, "What the collector hands over"). Sentences quoted in this crate without a source
//! are document 01's.
#![forbid(unsafe_code)]
#![warn(missing_docs)]

mod auth;
mod checksum;
mod cursor;
mod ipv4;
mod ipv6;
mod link;
mod number;
mod options;
mod print;
mod refusal;
mod reply;
mod slice;
mod transport;

pub use checksum::Sum;
pub use number::{EtherType, IpNumber, Naming};
pub use options::{option, OptionAnswer};
pub use print::print;
pub use refusal::{Layer, Reason, Refusal, Source};
pub use reply::{Header, HeaderAnswer, Kind, Net, Sliced, Span, Stop};
pub use slice::{count, header, headers, slice, Entry};
