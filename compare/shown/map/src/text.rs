//! The answers as one line of text each, in the words of document 01's program.

use crate::answer::{Answer, Excluded, Layer, Refused};
use crate::options::{OptionEnd, Options};
use oracle::{Naming, OptionAnswer, Sliced, Span};
use std::fmt::{Display, Formatter, Result};

impl Display for Answer {
    fn fmt(&self, f: &mut Formatter) -> Result {
        match self {
            Answer::Accepted(sliced) => accepted(f, sliced),
            Answer::Refused(refused) => refused.fmt(f),
            Answer::Excluded(excluded) => write!(f, "outside: {excluded}"),
        }
    }
}

fn accepted(f: &mut Formatter, sliced: &Sliced) -> Result {
    write!(f, "accepted")?;
    if let Some(Span { offset, length }) = sliced.link {
        write!(f, ", ethernet2 {offset} {length}")?;
    }
    for Span { offset, length } in &sliced.tags {
        write!(f, ", vlan {offset} {length}")?;
    }
    if let Some(net) = sliced.net {
        let (header, extensions) = (net.header, net.extensions);
        write!(f, ", {} {}", header.kind.name(), header.offset)?;
        write!(f, " {}", header.length)?;
        if extensions.length != 0 {
            write!(
                f,
                ", extensions {} {}",
                extensions.offset, extensions.length
            )?;
        }
        if net.fragmented {
            write!(f, ", fragmented")?;
        }
    }
    if let Some(header) = sliced.transport {
        let name = header.kind.name();
        write!(f, ", {name} {} {}", header.offset, header.length)?;
    }
    let Span { offset, length } = sliced.payload;
    write!(f, ", payload {offset} {length}, naming ")?;
    match sliced.naming {
        Naming::Ether(number) => write!(f, "0x{:04x}", number.0)?,
        Naming::Ip(number) => write!(f, "{}", number.0)?,
    }
    write!(f, ", stop {}", sliced.stop.number())
}

impl Display for Refused {
    fn fmt(&self, f: &mut Formatter) -> Result {
        match *self {
            Refused::TooShort {
                layer,
                offset,
                required,
                have,
                source,
            } => {
                write!(f, "refused 1 {layer} {offset} required {required}")?;
                write!(f, " have {have} source {}", source.name())
            }
            Refused::Content {
                number,
                value: None,
            } => write!(f, "refused {number}"),
            Refused::Content {
                number,
                value: Some(value),
            } => write!(f, "refused {number}, value {value}"),
        }
    }
}

impl Display for Layer {
    fn fmt(&self, f: &mut Formatter) -> Result {
        f.write_str(match self {
            Layer::Of(layer) => layer.name(),
            Layer::RawExtension => "ipv6-extension",
            Layer::Ip => "ip",
        })
    }
}

impl Display for Excluded {
    fn fmt(&self, f: &mut Formatter) -> Result {
        f.write_str(match self {
            Excluded::Macsec => "MACsec",
            Excluded::Arp => "ARP",
            Excluded::Icmp => "ICMP",
            Excluded::Igmp => "IGMP",
            Excluded::Icmpv6 => "ICMPv6",
        })
    }
}

impl Display for Options {
    fn fmt(&self, f: &mut Formatter) -> Result {
        for (element, answer) in self.elements.iter().zip(&self.listed) {
            if let OptionAnswer::Is { kind, offset, size } = answer {
                write!(f, "{element:?} (kind {kind} at {offset} size {size}), ")?;
            }
        }
        match &self.end {
            OptionEnd::NoMore => write!(f, "no more"),
            OptionEnd::Error { offset, error } => write!(f, "at {offset} {error:?}"),
        }
    }
}
