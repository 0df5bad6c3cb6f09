//! Damage done to a drawn frame: cuts at its edges, changed fields, changed and added bytes.

use crate::draft::{Draft, Field, Role};
use crate::rng::Rng;

/// Does one piece of damage.
pub(crate) fn damage(rng: &mut Rng, draft: &mut Draft) {
    match rng.weighted(&[20, 20, 30, 10, 10, 5, 5]) {
        0 => cut_frame(rng, draft),
        1 => cut_room(rng, draft),
        2 => change_field(rng, draft),
        3 => flip_bit(rng, draft),
        4 => change_bytes(rng, draft),
        5 => {
            let more = rng.within(1..=70);
            draft.bytes.extend(rng.bytes(more));
        }
        _ => {
            let length = rng.within(0..=draft.at());
            draft.bytes.truncate(length);
        }
    }
}

/// An edge of the frame, or one byte before or behind it.
fn near_edge(rng: &mut Rng, draft: &Draft) -> usize {
    let edge = rng.pick(&draft.edges);
    (edge + rng.below(3)).saturating_sub(1)
}

/// Ends the slice near an edge.
fn cut_frame(rng: &mut Rng, draft: &mut Draft) {
    let length = near_edge(rng, draft);
    draft.bytes.truncate(length);
}

/// Ends the room near an edge, by the IP header's length field.
fn cut_room(rng: &mut Rng, draft: &mut Draft) {
    let end = near_edge(rng, draft);
    match draft.ip_length() {
        Some((field, at)) if end >= at => draft.set(field, draft.length_to(field, end)),
        _ => cut_frame(rng, draft),
    }
}

/// Gives a deciding field a value that matters to some rule.
fn change_field(rng: &mut Rng, draft: &mut Draft) {
    if draft.fields.is_empty() {
        return;
    }
    let field = rng.pick(&draft.fields);
    let value = telling_value(rng, draft, field);
    draft.set(field, value);
}

fn telling_value(rng: &mut Rng, draft: &Draft, field: Field) -> u16 {
    let now = draft.get(field);
    match field.role {
        Role::EtherType => rng.pick(&[0x0800, 0x86DD, 0x8100, 0x88A8, 0x9100, 0x0806, 17, 6]),
        Role::Version => match rng.below(3) {
            0 => rng.pick(&[0x45, 0x65, 0x54, 0x44, 0x40, 0x4F, 0x46, 0x60, 0x6F, 0x50]),
            1 => (now & 0xF0) | rng.within(0..=15) as u16,
            _ => (now & 0x0F) | (rng.within(0..=15) as u16) << 4,
        },
        Role::TotalLength | Role::PayloadLength => telling_length(rng, now),
        Role::Fragment => rng.pick(&[0, 1, 2, 4, 6, 8, 0x1FFF, 0x2000, 0x4000, 0x8000, 0xFFFF]),
        Role::Number => match rng.below(4) {
            0 => u16::from(rng.byte()),
            _ => rng.pick(&[0, 6, 17, 43, 44, 50, 51, 58, 59, 60, 4, 41]),
        },
        Role::Units => match rng.below(3) {
            0 => u16::from(rng.byte()),
            _ => rng.pick(&[
                0,
                1,
                2,
                3,
                254,
                255,
                now.wrapping_add(1),
                now.wrapping_sub(1),
            ]),
        },
        Role::UdpLength => match rng.below(2) {
            0 => rng.within(0..=9) as u16,
            _ => telling_length(rng, now),
        },
        Role::DataOffset => (now & 0x0F) | (rng.within(0..=15) as u16) << 4,
    }
}

fn telling_length(rng: &mut Rng, now: u16) -> u16 {
    let step = rng.pick(&[1, 1, 1, 2, 4, 8]);
    match rng.below(6) {
        0 => rng.pick(&[0, 1, 7, 8, 19, 20, 21, 39, 40, 60, 0x8000, 0xFFFF]),
        1 => rng.word16(),
        2 => rng.within(0..=64) as u16,
        3 => now.wrapping_sub(step),
        _ => now.wrapping_add(step),
    }
}

/// Turns over one bit of a deciding field.
fn flip_bit(rng: &mut Rng, draft: &mut Draft) {
    if draft.fields.is_empty() {
        return;
    }
    let field = rng.pick(&draft.fields);
    let bit = rng.below(8 * field.role.width());
    draft.set(field, draft.get(field) ^ (1 << bit));
}

/// Changes up to four bytes anywhere.
fn change_bytes(rng: &mut Rng, draft: &mut Draft) {
    for _ in 0..rng.within(1..=4) {
        if draft.bytes.is_empty() {
            return;
        }
        let at = rng.below(draft.bytes.len());
        draft.bytes[at] = rng.byte();
    }
}
