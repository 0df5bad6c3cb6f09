//! The link part of a drawn frame: an Ethernet header and up to five tags of the three types.

use crate::draft::{Draft, Role};
use crate::parts::TAG_TYPES;
use crate::rng::Rng;

/// Types that name neither IP nor a tag: lengths, ARP, MACsec, PPPoE and neighbours of known types.
const OTHER_TYPES: [u16; 14] = [
    0x0000, 0x002E, 0x05DC, 0x0600, 0x0801, 0x0806, 0x07FF, 0x86DC, 0x86DE, 0x88A7, 0x88E5, 0x8864,
    0x9101, 0xFFFF,
];

/// A type that is mostly not opened.
pub(crate) fn other_type(rng: &mut Rng) -> u16 {
    if rng.chance(70) {
        rng.pick(&OTHER_TYPES)
    } else {
        rng.word16()
    }
}

/// Adds an Ethernet header and its tags, the last of which names `ether_type`.
pub(crate) fn add(rng: &mut Rng, draft: &mut Draft, ether_type: u16) {
    let tags = rng.weighted(&[40, 22, 12, 12, 8, 6]);
    let mut types: Vec<u16> = (0..tags).map(|_| rng.pick(&TAG_TYPES)).collect();
    types.push(ether_type);
    let mut bytes = rng.bytes(12);
    for (place, name) in types.into_iter().enumerate() {
        if place > 0 {
            bytes = rng.bytes(2);
        }
        bytes.extend(name.to_be_bytes());
        let length = bytes.len();
        draft.header(&bytes, length);
        draft.field(Role::EtherType, draft.at() - 2);
    }
}
