//! TCP options, asked for by number (RFC 9293 section 3.1, RFC 7323, RFC 2018).

/// The answer to "option number k".
#[derive(Clone, Copy, Debug, PartialEq, Eq, PartialOrd, Ord, Hash)]
pub enum OptionAnswer {
    /// "A listed option is its kind, offset and size; kind 1 is listed."
    Is {
        /// The option's first byte.
        kind: u8,
        /// Where it begins, counted from the slice's start.
        offset: usize,
        /// How many bytes it has.
        size: usize,
    },
    /// "After kind 0 or the end it is 'no more'; kind 0 itself isn't listed."
    NoMore,
    /// "What stands before a refused option is still listed; at its place and every later one the
    /// answer is the refusal."
    Refused {
        /// 8, 9 or 10.
        number: u8,
        /// The refused option's offset.
        offset: usize,
    },
}

/// Option number `k` of "a lent slice holding what follows byte 20 of a header (offsets count from
/// its start; any length is taken)".
pub fn option(options: &[u8], k: usize) -> OptionAnswer {
    let mut offset = 0;
    for _ in 0..k {
        match option_at(options, offset) {
            OptionAnswer::Is { size, .. } => offset += size,
            end => return end,
        }
    }
    option_at(options, offset)
}

/// The option that begins at `offset`: "8 comes before 9, 9 before 10".
fn option_at(options: &[u8], offset: usize) -> OptionAnswer {
    let rest = &options[offset..];
    let refused = |number| OptionAnswer::Refused { number, offset };
    let is = |kind, size| OptionAnswer::Is { kind, offset, size };
    match *rest {
        // "0 ends, 1 is one byte"
        [] | [0, ..] => OptionAnswer::NoMore,
        [1, ..] => is(1, 1),
        // "option without its length byte"
        [_] => refused(8),
        [kind, length, ..] => {
            let size = usize::from(length);
            // "option length below 2 or past the end"
            if size < 2 || size > rest.len() {
                refused(9)
            // "known option of wrong size"
            } else if !size_is_right(kind, size) {
                refused(10)
            } else {
                is(kind, size)
            }
        }
    }
}

/// "2 has size 4, 3 has 3, 4 has 2, 5 has 10, 18, 26 or 34, 8 has 10 [...]. Any other kind with a
/// sound length is handed out as unknown."
fn size_is_right(kind: u8, size: usize) -> bool {
    match kind {
        2 => size == 4,
        3 => size == 3,
        4 => size == 2,
        5 => matches!(size, 10 | 18 | 26 | 34),
        8 => size == 10,
        _ => true,
    }
}
