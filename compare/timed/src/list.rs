//! Listing headers in Rust, written for the comparison of speed: one straight walk, three numbers a header into lent memory.

use crate::walk::{auth, ethernet2, extension, ipv4, ipv6, is_tag, tcp, udp, vlan, Answer, Kind, TAG_LIMIT};

/// The lent numbers, and how many headers were met.
struct List<'a> {
    out: &'a mut [usize],
    to: usize,
    count: usize,
}

impl List<'_> {
    #[inline]
    fn put(&mut self, kind: Kind, at: usize, len: usize) {
        if let Some(three) = self.out.get_mut(self.to..self.to + 3) {
            three.copy_from_slice(&[kind as usize, at, len]);
            self.to += 3;
        }
        self.count += 1;
    }
}

/// The headers of a whole Ethernet II frame, as many as there is room for, and their count.
#[inline(always)]
pub fn headers(s: &[u8], out: &mut [usize]) -> Answer<usize> {
    let mut list = List { out, to: 0, count: 0 };
    let mut number = ethernet2(s)?;
    list.put(Kind::Ethernet2, 0, 14);
    let mut at = 14;
    let mut tags = 0;
    while is_tag(number) && tags < TAG_LIMIT {
        number = vlan(s, at)?;
        list.put(Kind::Vlan, at, 4);
        tags += 1;
        at += 4;
    }
    let (kind, ip) = match number {
        0x0800 => (Kind::Ipv4, ipv4(s, at)?),
        0x86DD => (Kind::Ipv6, ipv6(s, at)?),
        _ => return Ok(list.count),
    };
    list.put(kind, at, ip.len);
    let (end, source) = (ip.end, ip.source);
    let (mut number, mut fragmented) = (ip.number, ip.fragmented);
    at += ip.len;
    if kind == Kind::Ipv4 {
        if number == 51 {
            let x = auth(&s[at..end], at, source)?;
            list.put(Kind::Auth, at, x.len);
            at += x.len;
            number = x.number;
        }
    } else {
        let mut first = true;
        while let Some((kind, x)) = extension(&s[at..end], number, first, at, source)? {
            list.put(kind, at, x.len);
            at += x.len;
            number = x.number;
            fragmented |= x.fragmenting;
            first = false;
        }
    }
    match number {
        _ if fragmented => {}
        17 => {
            udp(&s[at..end], at, source)?;
            list.put(Kind::Udp, at, 8);
        }
        6 => {
            let len = tcp(&s[at..end], at, source)?;
            list.put(Kind::Tcp, at, len);
        }
        _ => {}
    }
    Ok(list.count)
}
