//! The text that document 01's program prints for a frame.

use crate::refusal::{Reason, Refusal};
use crate::reply::{Header, Sliced};
use crate::slice::{headers, slice, Entry};

/// The program's whole output for a frame: a line for each header, `payload` and `stop`, or one
/// `refused` line. The program's limit on its input is not applied.
pub fn print(entry: Entry, frame: &[u8]) -> String {
    let answer = slice(entry, frame).and_then(|sliced| Ok((sliced, headers(entry, frame)?)));
    match answer {
        Ok((sliced, list)) => print_accepted(&sliced, &list),
        Err(refusal) => print_refused(&refusal),
    }
}

/// As F12 shows it: `NAME OFFSET LENGTH` lines, then `payload OFFSET LENGTH` and `stop NUMBER`.
fn print_accepted(sliced: &Sliced, list: &[Header]) -> String {
    let mut text = String::new();
    for header in list {
        let name = header.kind.name();
        text += &format!("{name} {} {}\n", header.offset, header.length);
    }
    let payload = sliced.payload;
    text += &format!("payload {} {}\n", payload.offset, payload.length);
    text += &format!("stop {}\n", sliced.stop.number());
    text
}

/// As the 60-byte frame shows it; "refusals 2 to 7 print `refused`, number, layer, offset and the
/// value if they carry one."
fn print_refused(refusal: &Refusal) -> String {
    let number = refusal.number();
    let layer = refusal.layer.name();
    let offset = refusal.offset;
    let carried = match (refusal.reason, refusal.value()) {
        (
            Reason::TooShort {
                required,
                have,
                source,
            },
            _,
        ) => format!(" required {required} have {have} source {}", source.name()),
        (_, Some(value)) => format!(" {value}"),
        (_, None) => String::new(),
    };
    format!("refused {number} {layer} {offset}{carried}\n")
}
