//! The transport part and the payload of a drawn packet.

use crate::draft::{Draft, Role};
use crate::options::{damaged_options, sound_options};
use crate::parts;
use crate::rng::Rng;

/// Adds what `number` names (nothing, unless it is UDP or TCP) and a payload.
pub(crate) fn add(rng: &mut Rng, draft: &mut Draft, number: u8) {
    let size = payload_size(rng);
    let payload = rng.bytes(size);
    match number {
        17 => add_udp(rng, draft, size),
        6 => add_tcp(rng, draft),
        _ => {}
    }
    draft.fill(&payload);
}

fn payload_size(rng: &mut Rng) -> usize {
    match rng.weighted(&[250, 700, 40, 8, 2]) {
        0 => 0,
        1 => rng.within(1..=40),
        2 => rng.within(41..=300),
        3 => rng.within(301..=1_500),
        _ => rng.within(1_501..=66_000),
    }
}

/// UDP with a length of 0, of 1 to 7, exact, over and under.
fn add_udp(rng: &mut Rng, draft: &mut Draft, payload: usize) {
    let exact = 8 + payload;
    let length = match rng.weighted(&[50, 14, 8, 12, 10, 3, 3]) {
        0 => exact,
        1 => 0,
        2 => rng.within(1..=7),
        3 => rng.within(8..=exact),
        4 => exact + rng.within(1..=3),
        5 => exact + rng.within(4..=2_000),
        _ => usize::from(rng.word16()),
    };
    let at = draft.at();
    draft.header(&parts::udp(length), 8);
    draft.field(Role::UdpLength, at + 4);
    draft.edges.push(at + length);
}

/// TCP with every data offset, and options good and bad.
fn add_tcp(rng: &mut Rng, draft: &mut Draft) {
    let data_offset = match rng.weighted(&[45, 45, 10]) {
        0 => 5,
        1 => rng.within(6..=15) as u8,
        _ => rng.within(0..=4) as u8,
    };
    let at = draft.at();
    let mut bytes = rng.bytes(20);
    bytes[12] = data_offset << 4 | (bytes[12] & 0x0F);
    let room = usize::from(data_offset.max(5) - 5) * 4;
    let mut options = if rng.chance(60) {
        sound_options(rng, room)
    } else {
        damaged_options(rng, room)
    };
    options.resize(room, 0);
    bytes.extend(options);
    draft.header(&bytes, 20);
    draft.field(Role::DataOffset, at + 12);
}
