//! Many frames: the crate's answers against the oracle's, counted, with every difference classed.

use crate::parts::hex;
use crate::rows::{entry, outcome, Outcome};
use oracle::{EtherType, IpNumber, Naming, Source};
use shown_map::{Answer, Excluded, Layer, Refused, Way};
use std::collections::BTreeMap;

/// A class of frames: how many, and the smallest of them.
#[derive(Default)]
struct Class {
    count: usize,
    smallest: Option<(Way, Vec<u8>)>,
}

impl Class {
    fn add(&mut self, way: Way, frame: &[u8]) {
        self.count += 1;
        let smaller = match &self.smallest {
            Some((_, held)) => (frame.len(), frame) < (held.len(), &held[..]),
            None => true,
        };
        if smaller {
            self.smallest = Some((way, frame.to_vec()));
        }
    }
}

/// What was met.
#[derive(Default)]
struct Tally {
    accepted: usize,
    refused: BTreeMap<u8, usize>,
    outside: BTreeMap<Excluded, usize>,
    known: BTreeMap<&'static str, Class>,
    unknown: BTreeMap<String, Class>,
    other_version: usize,
}

/// Compares drawn frames and the structured ones; gives the number of classes that no row lists.
pub fn show(frames: usize, seed: u64) -> usize {
    let drawn = frames::Frames::new(seed).take(frames);
    let structured = frames::edges().chain(frames::sweeps());
    let mut faults = 0;
    let title = format!("{frames} drawn frames, seed {seed}");
    faults += compare(&title, drawn);
    faults += compare("Structured frames: edges and sweeps", structured);
    faults
}

fn compare(title: &str, cases: impl Iterator<Item = frames::Case>) -> usize {
    let mut named = Tally::default();
    let mut raw = Tally::default();
    for (entry, frame) in cases {
        let entry = ask(entry);
        named.ask(Way::Entry(entry), &frame);
        if entry != oracle::Entry::Ethernet {
            raw.ask(Way::Raw, &frame);
        }
    }
    let faults = named.show(&format!("{title}, by their entry"));
    faults + raw.show(&format!("{title}, the IP packets by the raw entry"))
}

fn ask(entry: frames::Entry) -> oracle::Entry {
    match entry {
        frames::Entry::Ethernet => oracle::Entry::Ethernet,
        frames::Entry::Ipv4 => oracle::Entry::Ipv4,
        frames::Entry::Ipv6 => oracle::Entry::Ipv6,
    }
}

impl Tally {
    fn ask(&mut self, way: Way, frame: &[u8]) {
        let Some(entry) = entry(way, frame) else {
            self.other_version += 1;
            return;
        };
        let published = shown_map::slice(way, frame);
        let answer = oracle::slice(entry, frame);
        let number = answer.as_ref().err().map(|refusal| refusal.number());
        let expected = Answer::from(answer);
        match (outcome(&published, &expected), number) {
            (Outcome::Same | Outcome::Folded, Some(number)) => {
                *self.refused.entry(number).or_default() += 1
            }
            (Outcome::Same, None) => {
                self.accepted += 1;
                if shown_map::headers(way, frame) != oracle::headers(entry, frame).ok() {
                    let class = "the same reply, other headers".to_string();
                    self.unknown.entry(class).or_default().add(way, frame);
                }
            }
            (Outcome::Outside, _) if stops_there(&published, &expected) => {
                if let Answer::Excluded(excluded) = published {
                    *self.outside.entry(excluded).or_default() += 1;
                }
            }
            _ => match known(way, frame, &published, &expected) {
                Some(row) => self.known.entry(row).or_default().add(way, frame),
                None => {
                    let class = format!("crate {}; oracle {}", shape(&published), shape(&expected));
                    self.unknown.entry(class).or_default().add(way, frame);
                }
            },
        }
    }

    fn show(&self, title: &str) -> usize {
        println!("\n== {title}");
        println!(
            "    accepted, the same reply and headers: {}",
            self.accepted
        );
        for (number, count) in &self.refused {
            println!("    refused with {number}, the same: {count}");
        }
        for (excluded, count) in &self.outside {
            println!("    outside, {excluded}: {count}");
        }
        if self.other_version != 0 {
            println!(
                "    neither version 4 nor 6, not asked: {}",
                self.other_version
            );
        }
        for (row, class) in &self.known {
            println!("    different, {row}: {}", class.count);
            class.show();
        }
        for (shape, class) in &self.unknown {
            println!("    DIFFERENT, NOT LISTED, {shape}: {}", class.count);
            class.show();
        }
        self.unknown.len()
    }
}

impl Class {
    fn show(&self) {
        let Some((way, frame)) = &self.smallest else {
            return;
        };
        let expected = entry(*way, frame).map(|entry| Answer::from(oracle::slice(entry, frame)));
        println!("        smallest ({way:?}) {}", hex(frame));
        println!("        crate  {}", shown_map::slice(*way, frame));
        if let Some(expected) = expected {
            println!("        oracle {expected}");
        }
    }
}

/// "We stop there, the crate goes on": the oracle accepts and names what the crate opened.
fn stops_there(published: &Answer, expected: &Answer) -> bool {
    let (Answer::Excluded(excluded), Answer::Accepted(sliced)) = (published, expected) else {
        return false;
    };
    let (naming, stop) = match excluded {
        Excluded::Macsec => (Naming::Ether(EtherType(0x88E5)), 1),
        Excluded::Arp => (Naming::Ether(EtherType(0x0806)), 1),
        Excluded::Icmp => (Naming::Ip(IpNumber(1)), 4),
        Excluded::Igmp => (Naming::Ip(IpNumber(2)), 4),
        Excluded::Icmpv6 => (Naming::Ip(IpNumber(58)), 4),
    };
    sliced.naming == naming && sliced.stop.number() == stop
}

/// The row that lists a difference. Only the raw entry has any.
fn known(way: Way, frame: &[u8], published: &Answer, expected: &Answer) -> Option<&'static str> {
    let (Answer::Refused(published), Answer::Refused(expected)) = (published, expected) else {
        return None;
    };
    if way != Way::Raw {
        return None;
    }
    let header = Layer::Of(oracle::Layer::Header(oracle::Kind::Ipv4));
    let short = |required| Refused::TooShort {
        layer: header,
        offset: 0,
        required,
        have: frame.len(),
        source: Source::Slice,
    };
    let ihl = frame[0] & 0x0F;
    let by_ihl = match ihl {
        0..=4 => Refused::Content {
            number: 3,
            value: Some(ihl),
        },
        _ => short(usize::from(ihl) * 4),
    };
    if frame.len() < 20 && *expected == short(20) && *published == by_ihl {
        return Some("E1: IHL before the 20 bytes");
    }
    source_known(frame, published, expected)
}

/// B4 and B5: with an IPv6 payload length of 0, the source is the crate's payload length and our
/// slice, all else equal.
fn source_known(frame: &[u8], published: &Refused, expected: &Refused) -> Option<&'static str> {
    let Refused::TooShort {
        layer,
        offset,
        required,
        have,
        source: Source::Slice,
    } = *expected
    else {
        return None;
    };
    let by_payload_length = Refused::TooShort {
        layer,
        offset,
        required,
        have,
        source: Source::Ipv6,
    };
    if frame[0] >> 4 != 6 || frame.get(4..6) != Some(&[0, 0]) || *published != by_payload_length {
        return None;
    }
    use oracle::Kind::*;
    match layer {
        Layer::RawExtension | Layer::Of(oracle::Layer::Header(Fragment | Auth)) => {
            Some("B4: source of a short extension, payload length 0")
        }
        Layer::Of(oracle::Layer::Header(Udp | Tcp)) if frame.len() == 40 => {
            Some("B5: source of an empty room, payload length 0")
        }
        _ => None,
    }
}

/// An answer without its numbers, to class differences by.
fn shape(answer: &Answer) -> String {
    match answer {
        Answer::Accepted(sliced) => format!("accepts, stop {}", sliced.stop.number()),
        Answer::Excluded(excluded) => format!("outside, {excluded}"),
        Answer::Refused(Refused::TooShort { layer, source, .. }) => {
            format!("refuses 1 {layer} source {}", source.name())
        }
        Answer::Refused(Refused::Content { number, .. }) => format!("refuses {number}"),
    }
}
