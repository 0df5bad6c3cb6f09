//! The extension headers of a drawn packet: of every kind and length, few or very many.

use crate::draft::{Draft, Role};
use crate::parts;
use crate::rng::Rng;

/// IP numbers that neither an extension nor UDP nor TCP has.
const OTHER_NUMBERS: [u8; 16] = [1, 2, 4, 5, 7, 16, 18, 41, 42, 45, 50, 58, 59, 61, 135, 255];

/// A number that ends the extensions: UDP, TCP, or one that is mostly not opened.
pub(crate) fn last_number(rng: &mut Rng) -> u8 {
    match rng.weighted(&[40, 40, 15, 5]) {
        0 => 17,
        1 => 6,
        2 => rng.pick(&OTHER_NUMBERS),
        _ => rng.byte(),
    }
}

/// How many extensions an IPv6 packet gets: mostly few, at times thousands.
pub(crate) fn how_many(rng: &mut Rng) -> usize {
    match rng.weighted(&[700, 500, 600, 190, 9, 1]) {
        0 => 0,
        1 => 1,
        2 => rng.within(2..=6),
        3 => rng.within(7..=40),
        4 => rng.within(41..=1_500),
        _ => rng.within(1_501..=12_000),
    }
}

/// The number that an IPv6 header or extension names, with `left` more extensions to come.
pub(crate) fn next_number(rng: &mut Rng, left: usize, first: bool) -> u8 {
    if left == 0 {
        return last_number(rng);
    }
    // a long chain that met hop-by-hop early would hardly ever be walked
    let stray = if left < 10 { 3 } else { 0 };
    match rng.weighted(&[25, 25, 20, 20, if first { 30 } else { stray }]) {
        0 => 43,
        1 => 60,
        2 => 44,
        3 => 51,
        _ => 0,
    }
}

/// Adds extensions from the one that `number` names; gives the number that ended them.
pub(crate) fn add(rng: &mut Rng, draft: &mut Draft, number: u8, many: usize) -> u8 {
    let mut number = number;
    let brief = many > 40;
    for left in (0..many).rev() {
        if !matches!(number, 0 | 43 | 44 | 51 | 60) {
            break;
        }
        let next = next_number(rng, left, false);
        add_one(rng, draft, number, next, brief);
        number = next;
    }
    number
}

/// Adds one extension of the kind that `number` names.
pub(crate) fn add_one(rng: &mut Rng, draft: &mut Draft, number: u8, next: u8, brief: bool) {
    let at = draft.at();
    let mut header = match number {
        44 => parts::fragment(next, fragment_word(rng)),
        51 => parts::auth(next, auth_units(rng, brief)),
        _ => parts::raw(next, raw_units(rng, brief)),
    };
    for byte in &mut header[4..] {
        *byte = rng.byte();
    }
    draft.header(&header, if number == 51 { 12 } else { 8 });
    draft.field(Role::Number, at);
    if number == 44 {
        draft.field(Role::Fragment, at + 2);
    } else {
        draft.field(Role::Units, at + 1);
    }
}

/// Fragmenting or not, the reserved bits set or not.
fn fragment_word(rng: &mut Rng) -> u16 {
    match rng.weighted(&[45, 20, 12, 12, 11]) {
        0 => 0,
        1 => rng.pick(&[2, 4, 6]),
        2 => 1,
        3 => rng.pick(&[8, 0x10, 0x4000, 0x8000, 0xFFF8]),
        _ => rng.word16(),
    }
}

fn raw_units(rng: &mut Rng, brief: bool) -> u8 {
    match rng.weighted(&[60, 30, if brief { 0 } else { 8 }, if brief { 0 } else { 2 }]) {
        0 => 0,
        1 => rng.pick(&[1, 2, 3]),
        2 => rng.within(4..=20) as u8,
        _ => rng.pick(&[31, 127, 128, 254, 255]),
    }
}

fn auth_units(rng: &mut Rng, brief: bool) -> u8 {
    let rare = usize::from(!brief);
    match rng.weighted(&[40, 40, 8 * rare, 3 * rare, 2 * rare]) {
        0 => 1,
        1 => rng.pick(&[2, 3, 4, 5]),
        2 => rng.within(6..=30) as u8,
        3 => rng.pick(&[63, 127, 128, 254, 255]),
        _ => 0,
    }
}
