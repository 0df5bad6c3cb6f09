//! The walk header by header in Rust, written for the comparison of speed: a cursor that gives one header at each call.

use crate::walk::{auth, ethernet2, extension, ipv4, ipv6, is_tag, tcp, udp, vlan, Answer, Header, Kind, Source, TAG_LIMIT};

#[derive(Clone, Copy)]
enum Named {
    Frame,
    Link(u16),
    Ip(u8),
    Nothing,
}

/// Where the walk stands: what the last header named, and the room.
pub struct Cursor<'a> {
    s: &'a [u8],
    named: Named,
    at: usize,
    end: usize,
    source: Source,
    tags: usize,
    fragmented: bool,
    six: bool,
    first: bool,
}

impl<'a> Cursor<'a> {
    pub fn new(s: &'a [u8]) -> Self {
        let (named, source) = (Named::Frame, Source::Slice);
        Cursor { s, named, at: 0, end: s.len(), source, tags: 0, fragmented: false, six: false, first: false }
    }

    #[inline]
    fn give(&mut self, kind: Kind, len: usize, named: Named) -> Answer<Option<Header>> {
        let header = Header { at: self.at, len, kind };
        self.at += len;
        self.named = named;
        Ok(Some(header))
    }

    /// The next header; none behind the last.
    #[inline]
    pub fn step(&mut self) -> Answer<Option<Header>> {
        let (s, at) = (self.s, self.at);
        match self.named {
            Named::Frame => {
                let number = ethernet2(s)?;
                self.give(Kind::Ethernet2, 14, Named::Link(number))
            }
            Named::Link(number) if is_tag(number) && self.tags < TAG_LIMIT => {
                let number = vlan(s, at)?;
                self.tags += 1;
                self.give(Kind::Vlan, 4, Named::Link(number))
            }
            Named::Link(number @ (0x0800 | 0x86DD)) => {
                self.six = number == 0x86DD;
                let ip = if self.six { ipv6(s, at)? } else { ipv4(s, at)? };
                (self.end, self.source, self.fragmented, self.first) = (ip.end, ip.source, ip.fragmented, true);
                self.give(if self.six { Kind::Ipv6 } else { Kind::Ipv4 }, ip.len, Named::Ip(ip.number))
            }
            Named::Ip(number) => self.behind_ip(number),
            Named::Link(_) | Named::Nothing => Ok(None),
        }
    }

    #[inline]
    fn behind_ip(&mut self, number: u8) -> Answer<Option<Header>> {
        let (at, source) = (self.at, self.source);
        let room = &self.s[at..self.end];
        let first = std::mem::replace(&mut self.first, false);
        if self.six {
            if let Some((kind, x)) = extension(room, number, first, at, source)? {
                self.fragmented |= x.fragmenting;
                return self.give(kind, x.len, Named::Ip(x.number));
            }
        } else if first && number == 51 {
            let x = auth(room, at, source)?;
            return self.give(Kind::Auth, x.len, Named::Ip(x.number));
        }
        match number {
            17 if !self.fragmented => {
                udp(room, at, source)?;
                self.give(Kind::Udp, 8, Named::Nothing)
            }
            6 if !self.fragmented => {
                let len = tcp(room, at, source)?;
                self.give(Kind::Tcp, len, Named::Nothing)
            }
            _ => Ok(None),
        }
    }
}

/// The headers of a whole Ethernet II frame, three numbers each, as many as there is room for, and their count.
#[inline(always)]
pub fn headers(s: &[u8], out: &mut [usize]) -> Answer<usize> {
    let mut walk = Cursor::new(s);
    let mut count = 0;
    let room = out.len() / 3;
    while let Some(h) = walk.step()? {
        if count < room {
            out[3 * count..3 * count + 3].copy_from_slice(&[h.kind as usize, h.at, h.len]);
        }
        count += 1;
    }
    Ok(count)
}
