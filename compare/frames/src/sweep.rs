//! Sweeps over sample frames: every byte given every value, and every cut.

use crate::entry::{Case, Entry};
use crate::odometer::Odometer;
use crate::parts::{auth, fragment, ipv4, ipv6, link, raw, tcp, udp};

/// Frames that together hold every kind of header and every stop.
pub fn samples() -> Vec<Case> {
    let mut cases = ipv4_samples();
    cases.extend(ipv6_samples());
    cases.push((Entry::Ethernet, [link(4, 0x0800), vec![1; 8]].concat()));
    cases.push((Entry::Ethernet, [link(1, 0x0806), vec![1; 5]].concat()));
    cases
}

fn ipv4_samples() -> Vec<Case> {
    let with_auth = [
        link(2, 0x0800),
        ipv4(6, 51, 0x4000, 24 + 16 + 12),
        auth(17, 2),
        udp(10),
        vec![7; 4 + 5],
    ];
    let with_options = [
        link(0, 0x0800),
        ipv4(5, 6, 0, 20 + 28 + 3),
        tcp(7),
        vec![7; 3],
    ];
    let in_pieces = [ipv4(5, 51, 0x2001, 20 + 12 + 6), auth(6, 1), vec![7; 6]];
    let whole_room = [ipv4(15, 17, 0, 60 + 12), udp(0), vec![7; 4]];
    let unopened = [ipv4(5, 51, 0, 20 + 12 + 7), auth(51, 1), vec![7; 7 + 2]];
    vec![
        (Entry::Ethernet, with_auth.concat()),
        (Entry::Ethernet, with_options.concat()),
        (Entry::Ipv4, in_pieces.concat()),
        (Entry::Ipv4, whole_room.concat()),
        (Entry::Ipv4, unopened.concat()),
    ]
}

fn ipv6_samples() -> Vec<Case> {
    let every_kind = [
        raw(43, 0),
        raw(44, 1),
        fragment(51, 6),
        auth(60, 1),
        raw(6, 0),
        tcp(6),
        vec![7; 3],
    ]
    .concat();
    let marked = [fragment(44, 9), fragment(60, 0), raw(51, 0), auth(17, 2)].concat();
    let plain = [udp(11), vec![7; 3]].concat();
    let over = |number, payload, content: &[u8]| [&ipv6(number, payload)[..], content].concat();
    let tagged = |number, content: &[u8]| {
        let packet = over(number, content.len(), content);
        [&link(3, 0x86DD)[..], &packet, &[9; 4]].concat()
    };
    let untold = [link(1, 0x86DD), over(0, 0, &every_kind)];
    vec![
        (Entry::Ipv6, over(0, every_kind.len(), &every_kind)),
        (Entry::Ipv6, over(0, 0, &every_kind)),
        (Entry::Ipv6, over(44, 0, &marked)),
        (Entry::Ethernet, tagged(44, &marked)),
        (Entry::Ethernet, tagged(17, &plain)),
        (Entry::Ethernet, tagged(0, &every_kind)),
        (Entry::Ethernet, untold.concat()),
        (Entry::Ipv6, over(17, 0, &plain)),
    ]
}

/// Every sample with every byte given every value, whole and cut 0, 1 and 2 bytes behind that byte;
/// and every sample cut at every length.
pub fn sweeps() -> impl Iterator<Item = Case> {
    samples().into_iter().flat_map(|(entry, bytes)| {
        let whole = bytes.clone();
        let cuts = (0..=bytes.len()).map(move |length| (entry, whole[..length].to_vec()));
        let changes = Odometer::new([bytes.len(), 256, 4]).map(move |[at, value, cut]| {
            let mut changed = bytes.clone();
            changed[at] = value as u8;
            if cut < 3 {
                changed.truncate(at + 1 + cut);
            }
            (entry, changed)
        });
        cuts.chain(changes)
    })
}
