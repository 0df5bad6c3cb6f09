//! The answers that are compared: the oracle's, without what the crate's refusals lack.

use oracle::{Kind, Reason, Refusal, Sliced, Source};

/// An answer to a frame, from either side.
#[derive(Clone, Debug, PartialEq, Eq)]
pub enum Answer {
    /// The whole reply.
    Accepted(Sliced),
    /// The refusal, as far as both sides say it.
    Refused(Refused),
    /// "Frames that reach MACsec, ARP, ICMP, IGMP or ICMPv6 are outside the comparison: we stop
    /// there, the crate goes on." Only the crate's side gives this.
    Excluded(Excluded),
}

/// What puts a frame outside the comparison.
#[derive(Clone, Copy, Debug, PartialEq, Eq, PartialOrd, Ord)]
pub enum Excluded {
    /// MACsec between the link header and IP.
    Macsec,
    /// ARP after the link headers.
    Arp,
    /// ICMP after IP.
    Icmp,
    /// IGMP after IP.
    Igmp,
    /// ICMPv6 after IP.
    Icmpv6,
}

/// A refusal of a frame.
#[derive(Clone, Copy, Debug, PartialEq, Eq)]
pub enum Refused {
    /// Refusal 1, with all that it carries.
    TooShort {
        /// What was being read.
        layer: Layer,
        /// Where it begins.
        offset: usize,
        /// The bytes asked for.
        required: usize,
        /// The bytes there, or the value of a length field.
        have: usize,
        /// What `have` comes from.
        source: Source,
    },
    /// Refusals 2 to 7, and document 02's 11 at the raw entry: number and value only.
    Content {
        /// The number in the papers' tables.
        number: u8,
        /// The version, IHL or data offset.
        value: Option<u8>,
    },
}

/// The layer of a refusal, folded.
#[derive(Clone, Copy, Debug, PartialEq, Eq)]
pub enum Layer {
    /// A layer that both sides name.
    Of(oracle::Layer),
    /// Hop-by-hop, routing or destination, which the crate gives one name.
    RawExtension,
    /// An IP header of unknown version, at the crate's raw entry only.
    Ip,
}

impl Layer {
    /// The layer as the crate names it.
    pub fn fold(layer: oracle::Layer) -> Layer {
        match layer {
            oracle::Layer::Header(Kind::HopByHop | Kind::Routing | Kind::Destination) => {
                Layer::RawExtension
            }
            other => Layer::Of(other),
        }
    }
}

impl From<Refusal> for Refused {
    fn from(refusal: Refusal) -> Refused {
        match refusal.reason {
            Reason::TooShort {
                required,
                have,
                source,
            } => Refused::TooShort {
                layer: Layer::fold(refusal.layer),
                offset: refusal.offset,
                required,
                have,
                source,
            },
            _ => Refused::Content {
                number: refusal.number(),
                value: refusal.value(),
            },
        }
    }
}

impl From<Result<Sliced, Refusal>> for Answer {
    /// The oracle's answer, folded.
    fn from(answer: Result<Sliced, Refusal>) -> Answer {
        match answer {
            Ok(sliced) => Answer::Accepted(sliced),
            Err(refusal) => Answer::Refused(refusal.into()),
        }
    }
}
