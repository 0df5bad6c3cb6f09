//! TCP options: part C of the list row by row, then many slices, each classed by its row.

use crate::parts::hex;
use oracle::OptionAnswer;
use shown_map::{OptionEnd, Options, TcpOptionReadError};
use std::collections::BTreeMap;

/// The rows of part C: name, class, what it is, bytes.
const ROWS: [(&str, &str, &str, &[u8]); 19] = [
    ("same", "same", "nothing", &[]),
    ("same", "same", "kind 0 ends, isn't listed", &[1, 0, 2]),
    ("same", "same", "kind 5", &[5, 10, 0, 0, 0, 1, 0, 0, 0, 2]),
    ("same", "same", "kind 8", &[8, 10, 0, 0, 0, 1, 0, 0, 0, 2]),
    ("same", "same", "past the end: ours 9", &[2, 4, 5]),
    ("same", "same", "wrong size: ours 10", &[2, 3, 5, 1]),
    ("C1", "C1", "unknown kind", &[0xFD, 4, 0, 0]),
    ("C2", "C2", "unknown kind, no length byte", &[0xFD]),
    ("C2", "C2", "unknown kind, bad length", &[0xFD, 1]),
    ("C3", "C3", "slice below the right size", &[2, 3, 5]),
    ("C3", "C3", "the same, length below 2", &[2, 0]),
    ("C4", "C4", "wrong size past the end", &[2, 6, 0, 0]),
    ("C4", "C4", "wrong size below 2", &[4, 0]),
    ("C5", "C5", "kind 5, size past the end", &[5, 11]),
    ("C5", "C5", "kind 5, size below 2", &[5, 0]),
    ("C6", "C6", "lone kind byte, known kind", &[8]),
    ("C7", "C6", "place 1, after an error", &[2]),
    ("C7", "C1", "place 1, after an unknown", &[9, 2, 1]),
    (
        "C8",
        "same",
        "values, not kinds",
        &[1, 2, 4, 5, 180, 3, 3, 7, 4, 2],
    ),
];

/// Prints the rows with both answers; gives the number of those not as listed.
pub fn show() -> usize {
    println!("\n== TCP options");
    let mut faults = 0;
    for (row, listed, about, bytes) in ROWS {
        let published = shown_map::options(bytes);
        let good = class(bytes, &published) == Some(listed);
        faults += usize::from(!good);
        let place = published.listed.len();
        println!("{row}: {about}");
        println!("    bytes  {}", hex(bytes));
        println!("    crate  {published}; then {}", after(published.goes_on));
        println!(
            "    oracle {}; then {}",
            text(bytes),
            one(oracle::option(bytes, place + 1))
        );
        let outcome = match listed {
            "same" => "Same",
            _ => "Different",
        };
        let end = if good { "as listed" } else { "NOT AS LISTED" };
        println!("    {outcome}, {end}");
    }
    faults
}

fn after(goes_on: bool) -> &'static str {
    match goes_on {
        true => "more",
        false => "none",
    }
}

/// Classes drawn slices, the structured ones, and the options of drawn frames; gives the number of
/// classes that no row lists.
pub fn count(slices: usize, seed: u64) -> usize {
    let drawn = frames::OptionSlices::new(seed).take(slices);
    let of_frames = frames::Frames::new(seed)
        .take(slices)
        .filter_map(|(_, frame)| tcp_options(&frame));
    let mut faults = tally(&format!("{slices} drawn option slices, seed {seed}"), drawn);
    faults += tally("The options of drawn Ethernet frames", of_frames);
    faults + tally("Structured option slices", frames::option_edges())
}

/// What follows byte 20 of a frame's TCP header.
fn tcp_options(frame: &[u8]) -> Option<Vec<u8>> {
    let sliced = oracle::slice(oracle::Entry::Ethernet, frame).ok()?;
    let header = sliced.transport?;
    let end = header.offset + header.length;
    (header.kind == oracle::Kind::Tcp).then(|| frame[header.offset + 20..end].to_vec())
}

fn tally(title: &str, slices: impl Iterator<Item = Vec<u8>>) -> usize {
    let mut classes = BTreeMap::<_, (usize, Vec<u8>)>::new();
    for slice in slices {
        let class = class(&slice, &shown_map::options(&slice));
        let (count, smallest) = classes.entry(class).or_insert((0, slice.clone()));
        *count += 1;
        if (slice.len(), &slice) < (smallest.len(), smallest) {
            *smallest = slice;
        }
    }
    println!("\n== {title}");
    for (class, (count, smallest)) in &classes {
        let name = class.unwrap_or("DIFFERENT, NOT LISTED");
        println!("    {name}: {count}, the smallest {}", hex(smallest));
    }
    usize::from(classes.contains_key(&None))
}

/// The row that a slice's two lists belong to; none where no row lists it.
fn class(bytes: &[u8], published: &Options) -> Option<&'static str> {
    use TcpOptionReadError::*;
    let place = published.listed.len();
    let listed = (0..place).map(|k| oracle::option(bytes, k));
    if !listed.eq(published.listed.iter().copied()) || published.goes_on {
        return None;
    }
    let expected = oracle::option(bytes, place);
    let (at, error) = match &published.end {
        OptionEnd::NoMore => return (expected == OptionAnswer::NoMore).then_some("same"),
        OptionEnd::Error { offset, error } => (*offset, error),
    };
    let number = match expected {
        OptionAnswer::Refused { number, offset } if offset == at => Some(number),
        OptionAnswer::Is { offset, .. } if offset == at => None,
        _ => return None,
    };
    // C7: after an error the crate has no more, and our refusal stays
    if number.is_some() && oracle::option(bytes, place + 1) != expected {
        return None;
    }
    let rest = &bytes[at..];
    let length = rest.get(1).map(|&length| usize::from(length));
    let past_end = length.is_some_and(|length| length > rest.len());
    match (rest[0], error, number) {
        (2 | 3 | 4 | 5 | 8, UnexpectedEndOfSlice { .. }, Some(8)) => Some("C6"),
        (2 | 3 | 4 | 5 | 8, UnexpectedEndOfSlice { .. }, Some(9)) if past_end => Some("same"),
        (2 | 3 | 4 | 8, UnexpectedEndOfSlice { .. }, Some(9 | 10)) => Some("C3"),
        (2 | 3 | 4 | 5 | 8, UnexpectedSize { .. }, Some(10)) => Some("same"),
        (2 | 3 | 4 | 8, UnexpectedSize { .. }, Some(9)) => Some("C4"),
        (5, UnexpectedSize { .. }, Some(9)) => Some("C5"),
        (2 | 3 | 4 | 5 | 8, _, _) => None,
        (_, UnknownId(_), None) => Some("C1"),
        (_, UnknownId(_), Some(8 | 9)) => Some("C2"),
        _ => None,
    }
}

/// The oracle's list as text.
fn text(bytes: &[u8]) -> String {
    let mut text = String::new();
    for k in 0.. {
        let answer = oracle::option(bytes, k);
        text += &one(answer);
        match answer {
            OptionAnswer::Is { .. } => text += ", ",
            _ => break,
        }
    }
    text
}

fn one(answer: OptionAnswer) -> String {
    match answer {
        OptionAnswer::Is { kind, offset, size } => format!("kind {kind} at {offset} size {size}"),
        OptionAnswer::NoMore => "no more".to_string(),
        OptionAnswer::Refused { number, offset } => format!("at {offset} refused {number}"),
    }
}
