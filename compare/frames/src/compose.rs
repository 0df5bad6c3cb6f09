//! Whole frames drawn by chance, before any damage: an entry, link headers, and a packet or not.

use crate::draft::Draft;
use crate::entry::Entry;
use crate::rng::Rng;
use crate::{link, net};

/// Draws a frame whose headers are mostly sound.
pub(crate) fn compose(rng: &mut Rng) -> Draft {
    let entry = [Entry::Ethernet, Entry::Ipv4, Entry::Ipv6][rng.weighted(&[50, 20, 30])];
    let mut draft = Draft::new(entry);
    let named_ipv4 = match entry {
        Entry::Ipv4 => true,
        Entry::Ipv6 => false,
        Entry::Ethernet => match rng.weighted(&[44, 46, 10]) {
            0 => {
                link::add(rng, &mut draft, 0x0800);
                true
            }
            1 => {
                link::add(rng, &mut draft, 0x86DD);
                false
            }
            _ => {
                let ether_type = link::other_type(rng);
                link::add(rng, &mut draft, ether_type);
                let length = rng.within(0..=60);
                draft.fill(&rng.bytes(length));
                return draft;
            }
        },
    };
    // now and then the packet is of the version that was not named
    if named_ipv4 != rng.chance(2) {
        net::add_ipv4(rng, &mut draft);
    } else {
        net::add_ipv6(rng, &mut draft);
    }
    draft
}

/// Bytes without a plan, the first at times that of an IP header.
pub(crate) fn noise(rng: &mut Rng) -> Draft {
    let mut draft = Draft::new(rng.pick(&Entry::ALL));
    let length = match rng.weighted(&[50, 45, 5]) {
        0 => rng.within(0..=45),
        1 => rng.within(46..=120),
        _ => rng.within(121..=2_000),
    };
    draft.bytes = rng.bytes(length);
    if rng.chance(60) {
        if let Some(first) = draft.bytes.first_mut() {
            *first = rng.pick(&[0x45, 0x46, 0x4F, 0x44, 0x54, 0x60, 0x6F]);
        }
    }
    draft
}
