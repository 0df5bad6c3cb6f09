//! The answers of etherparse 0.21.0's shown files, in the oracle's types so that they compare.
//!
//! What the crate doesn't say is left out of the comparison or derived from its slices: content
//! errors carry no place ("Locations on 2 to 7 are ours"), and the stop, the naming number and the
//! payload's range follow from the slices. "Where the crate gives routing, destination and
//! hop-by-hop headers one layer name, ours are folded to it before comparing."
#![forbid(unsafe_code)]
#![warn(missing_docs)]

mod accepted;
mod answer;
mod checksum;
mod headers;
mod options;
mod refused;
mod text;

pub use answer::{Answer, Excluded, Layer, Refused};
pub use checksum::{checksum, checksum_in_steps, checksum_no_zero};
pub use etherparse::TcpOptionReadError;
pub use options::{options, OptionEnd, Options};

use etherparse::{ether_type, SlicedPacket};
use oracle::{Entry, Header};
use std::fmt::Debug;

/// The published cursor's answer to a frame.
pub fn slice(way: impl Into<Way>, frame: &[u8]) -> Answer {
    match packet(way.into(), frame) {
        Ok(packet) => accepted::answer(frame, &packet),
        Err(error) => Answer::Refused(refused::refused(error)),
    }
}

/// Every header of an accepted frame, once, in order; none where it is refused or excluded.
pub fn headers(way: impl Into<Way>, frame: &[u8]) -> Option<Vec<Header>> {
    headers::headers(frame, &packet(way.into(), frame).ok()?)
}

/// The published cursor's error as it is, unfolded.
pub fn error(way: impl Into<Way>, frame: &[u8]) -> Option<impl Debug> {
    packet(way.into(), frame).err()
}

/// The ways into the published cursor.
#[derive(Clone, Copy, Debug, PartialEq, Eq)]
pub enum Way {
    /// One of document 01's entries. The two IP entries go the way that their EtherType goes, so
    /// that `slice_ipv4` and `slice_ipv6` are run.
    Entry(Entry),
    /// A packet whose version is read from it: `slice_ip` with `IpSlice`, which tests in an order
    /// of its own.
    Raw,
}

impl From<Entry> for Way {
    fn from(entry: Entry) -> Way {
        Way::Entry(entry)
    }
}

fn packet(way: Way, frame: &[u8]) -> Result<SlicedPacket<'_>, etherparse::err::packet::SliceError> {
    match way {
        Way::Entry(Entry::Ethernet) => SlicedPacket::from_ethernet(frame),
        Way::Entry(Entry::Ipv4) => SlicedPacket::from_ether_type(ether_type::IPV4, frame),
        Way::Entry(Entry::Ipv6) => SlicedPacket::from_ether_type(ether_type::IPV6, frame),
        Way::Raw => SlicedPacket::from_ip(frame),
    }
}
