//! A row: a frame, what is known of it, and both answers to it.

use crate::parts::hex;
use oracle::Entry;
use shown_map::{Answer, Layer, Refused, Way};

/// How the two answers compare.
#[derive(Clone, Copy, Debug, PartialEq, Eq)]
pub enum Outcome {
    /// They are equal in all that they carry.
    Same,
    /// They are equal once folded: the crate gives a content error no place, and hop-by-hop,
    /// routing and destination one layer name.
    Folded,
    /// They differ.
    Different,
    /// The frame reaches what document 01 leaves out.
    Outside,
}

/// What a row's answer rests on.
#[derive(Clone, Copy, Debug, PartialEq, Eq)]
pub enum Rests {
    /// The deciding file is shown.
    Shown,
    /// The deciding file is one of ours.
    Fill,
}

/// One row.
pub struct Row {
    /// Its name in the papers.
    pub name: &'static str,
    /// What the frame is.
    pub about: &'static str,
    /// How the crate is asked.
    pub way: Way,
    /// The frame.
    pub frame: Vec<u8>,
    /// What is listed.
    pub listed: Outcome,
    /// Whose file decides the crate's answer.
    pub rests: Rests,
}

impl Row {
    /// A row at the Ethernet entry that a shown file decides, the answers equal.
    pub fn new(name: &'static str, about: &'static str, frame: Vec<u8>) -> Row {
        Row {
            name,
            about,
            way: Way::Entry(Entry::Ethernet),
            frame,
            listed: Outcome::Same,
            rests: Rests::Shown,
        }
    }

    /// The same row, its answers listed as equal once folded.
    pub fn folded(self) -> Row {
        Row {
            listed: Outcome::Folded,
            ..self
        }
    }

    /// The same row at the raw entry.
    pub fn raw(self) -> Row {
        Row {
            way: Way::Raw,
            ..self
        }
    }

    /// The same row, its answers listed as different.
    pub fn different(self) -> Row {
        Row {
            listed: Outcome::Different,
            ..self
        }
    }

    /// The same row, listed as outside the comparison.
    pub fn outside(self) -> Row {
        Row {
            listed: Outcome::Outside,
            ..self
        }
    }

    /// The same row, decided by a fill.
    pub fn fill(self) -> Row {
        Row {
            rests: Rests::Fill,
            ..self
        }
    }
}

/// The oracle's entry for a way; the raw entry "picks IPv4 or IPv6 by version".
pub fn entry(way: Way, frame: &[u8]) -> Option<Entry> {
    match way {
        Way::Entry(entry) => Some(entry),
        Way::Raw => match frame.first()? >> 4 {
            4 => Some(Entry::Ipv4),
            6 => Some(Entry::Ipv6),
            _ => None,
        },
    }
}

/// How two answers compare.
pub fn outcome(published: &Answer, expected: &Answer) -> Outcome {
    match published {
        Answer::Excluded(_) => Outcome::Outside,
        _ if published != expected => Outcome::Different,
        Answer::Refused(
            Refused::Content { .. }
            | Refused::TooShort {
                layer: Layer::RawExtension,
                ..
            },
        ) => Outcome::Folded,
        _ => Outcome::Same,
    }
}

/// Prints the rows with both answers; gives the number of those not as listed.
pub fn show(title: &str, rows: &[Row]) -> usize {
    println!("\n== {title}");
    rows.iter().filter(|row| !show_one(row)).count()
}

fn show_one(row: &Row) -> bool {
    let frame = &row.frame[..];
    let entry = entry(row.way, frame).expect("a row's version is 4 or 6");
    let published = shown_map::slice(row.way, frame);
    let expected = Answer::from(oracle::slice(entry, frame));
    let found = outcome(&published, &expected);
    let way = match row.way {
        Way::Entry(Entry::Ethernet) => "",
        Way::Entry(_) => " (IP entry)",
        Way::Raw => " (raw entry)",
    };
    println!("{}{way}: {}", row.name, row.about);
    println!("    bytes  {}", hex(frame));
    match shown_map::error(row.way, frame) {
        Some(error) => println!("    crate  {published}   {error:?}"),
        None => println!("    crate  {published}"),
    }
    match oracle::slice(entry, frame) {
        Ok(_) => println!("    oracle {expected}"),
        Err(_) => println!("    oracle {}", oracle::print(entry, frame).trim_end()),
    }
    let same_headers = found != Outcome::Same
        || shown_map::headers(row.way, frame) == oracle::headers(entry, frame).ok();
    let good = found == row.listed && same_headers;
    let rests = match row.rests {
        Rests::Shown => "",
        Rests::Fill => ", decided by a fill",
    };
    let end = match (good, same_headers) {
        (true, _) => "as listed".to_string(),
        (false, true) => format!("NOT AS LISTED ({:?})", row.listed),
        (false, false) => "NOT AS LISTED (other headers)".to_string(),
    };
    println!("    {found:?}{rests}, {end}");
    good
}
