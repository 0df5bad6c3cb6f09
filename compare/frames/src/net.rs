//! The IP part of a drawn frame: a header, its extensions, transport, padding and the length field.

use crate::draft::{Draft, Field, Role};
use crate::rng::Rng;
use crate::{chain, parts, transport};

/// Adds an IPv4 packet: options or none, AUTH or none, fragmented or not.
pub(crate) fn add_ipv4(rng: &mut Rng, draft: &mut Draft) {
    let at = draft.at();
    let ihl = if rng.chance(60) {
        5
    } else {
        rng.within(6..=15)
    };
    let number = match rng.weighted(&[75, 20, 5]) {
        0 => chain::last_number(rng),
        1 => 51,
        _ => rng.pick(&[0, 43, 44, 60]),
    };
    let mut header = parts::ipv4(ihl, number, fragment_word(rng), 0);
    for byte in &mut header[20..] {
        *byte = rng.byte();
    }
    draft.header(&header, 20);
    draft.field(Role::Version, at);
    draft.field(Role::TotalLength, at + 2);
    draft.field(Role::Fragment, at + 6);
    draft.field(Role::Number, at + 9);
    let last = if number == 51 {
        let next = match rng.weighted(&[85, 15]) {
            0 => chain::last_number(rng),
            _ => rng.pick(&[0, 43, 44, 51, 60]),
        };
        chain::add_one(rng, draft, 51, next, false);
        next
    } else {
        number
    };
    transport::add(rng, draft, last);
    close(rng, draft);
}

/// Adds an IPv6 packet with a chain of extensions.
pub(crate) fn add_ipv6(rng: &mut Rng, draft: &mut Draft) {
    let at = draft.at();
    let many = chain::how_many(rng);
    let number = chain::next_number(rng, many, true);
    let mut header = parts::ipv6(number, 0);
    header[0] |= rng.byte() & 0x0F;
    draft.header(&header, 40);
    draft.field(Role::Version, at);
    draft.field(Role::PayloadLength, at + 4);
    draft.field(Role::Number, at + 6);
    let last = chain::add(rng, draft, number, many);
    transport::add(rng, draft, last);
    close(rng, draft);
}

/// IPv4's flags and fragment offset; the reserved bit and "don't fragment" mean nothing here.
fn fragment_word(rng: &mut Rng) -> u16 {
    match rng.weighted(&[45, 25, 5, 8, 8, 9]) {
        0 => 0,
        1 => 0x4000,
        2 => rng.pick(&[0x8000, 0xC000]),
        3 => 0x2000,
        4 => rng.pick(&[1, 2, 0x0100, 0x1000, 0x1FFF]),
        _ => rng.word16(),
    }
}

/// Ends a packet: the room's end, padding behind it, and a length that is exact, short or long.
fn close(rng: &mut Rng, draft: &mut Draft) {
    let end = draft.at();
    if rng.chance(40) {
        let padding = rng.within(1..=46);
        draft.fill(&rng.bytes(padding));
    }
    let Some((field, at)) = draft.ip_length() else {
        return;
    };
    let value = length(rng, draft, field, end, at);
    draft.set(field, value);
}

fn length(rng: &mut Rng, draft: &Draft, field: Field, end: usize, at: usize) -> u16 {
    let exact = draft.length_to(field, end);
    // payload length 0 leaves the room to the slice; so does one too long for 16 bits
    let zero = match field.role {
        Role::PayloadLength if end - at > 65_575 => 2_000,
        Role::PayloadLength => 18,
        _ => 1,
    };
    match rng.weighted(&[66, zero, 7, 4, 4, 1]) {
        0 => exact,
        1 => 0,
        2 => draft.length_to(field, rng.within(at..=end)),
        3 => draft.length_to(field, draft.at()),
        4 => draft.length_to(field, draft.at() + rng.within(1..=3)),
        _ => rng.word16(),
    }
}
