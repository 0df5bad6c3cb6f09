//! Slicing in Rust, written for the comparison of speed: the rules of document 01, each header by a small function that the compiler
//! takes in, everything in locals, the reply made once at the end.

/// A header's kind, by its number.
#[derive(Clone, Copy, Debug, PartialEq, Eq)]
#[repr(u8)]
pub enum Kind {
    Ethernet2 = 1,
    Vlan = 2,
    Ipv4 = 3,
    Ipv6 = 4,
    HopByHop = 5,
    Routing = 6,
    Destination = 7,
    Fragment = 8,
    Auth = 9,
    Udp = 10,
    Tcp = 11,
    Ipv4Packet = 13,
    Ipv6Packet = 14,
    UdpPayload = 15,
}

/// What set a length, by its number.
#[derive(Clone, Copy, Debug, PartialEq, Eq)]
#[repr(u8)]
pub enum Source {
    Slice = 1,
    Ipv4 = 2,
    Ipv6 = 3,
    Udp = 4,
}

#[derive(Clone, Copy, Debug, PartialEq, Eq)]
pub enum Refusal {
    TooShort { offset: usize, required: usize, have: usize, layer: Kind, source: Source },
    Ipv4Version { offset: usize, version: u8 },
    SmallIhl { offset: usize, ihl: u8 },
    Ipv6Version { offset: usize, version: u8 },
    HopByHopNotAtStart { offset: usize },
    ZeroAuthLength { offset: usize },
    SmallDataOffset { offset: usize, value: u8 },
}

#[derive(Clone, Copy, Debug, PartialEq, Eq)]
pub struct Header {
    pub at: usize,
    pub len: usize,
    pub kind: Kind,
}

#[derive(Clone, Copy, Debug, PartialEq, Eq)]
pub struct Span {
    pub at: usize,
    pub len: usize,
}

#[derive(Clone, Copy, Debug, PartialEq, Eq)]
pub struct Net {
    pub header: Header,
    pub exts: Span,
    pub fragmented: bool,
}

#[derive(Clone, Copy, Debug, PartialEq, Eq)]
pub enum Number {
    EtherType(u16),
    Ip(u8),
}

/// Why the walk stopped, by its number.
#[derive(Clone, Copy, Debug, PartialEq, Eq)]
#[repr(u8)]
pub enum Stop {
    EtherTypeNotOpened = 1,
    TagsFull = 2,
    Fragment = 3,
    IpNumberNotOpened = 4,
    TransportRead = 5,
}

#[derive(Clone, Copy, Debug, PartialEq, Eq)]
pub struct Ending {
    pub payload: Span,
    pub number: Number,
    pub stop: Stop,
}

pub const TAG_LIMIT: usize = 3;

#[derive(Clone, Copy, Debug, PartialEq, Eq)]
pub struct Sliced {
    pub link: Option<Header>,
    pub tags: [Span; TAG_LIMIT],
    pub count: usize,
    pub net: Option<Net>,
    pub transport: Option<Header>,
    pub ending: Ending,
}

pub type Answer<T> = Result<T, Refusal>;

#[inline]
fn be16(s: &[u8], at: usize) -> u16 {
    u16::from_be_bytes([s[at], s[at + 1]])
}

#[inline]
fn whole(s: &[u8], required: usize, layer: Kind, offset: usize, source: Source) -> Answer<()> {
    if s.len() < required {
        return Err(Refusal::TooShort { offset, required, have: s.len(), layer, source });
    }
    Ok(())
}

#[inline]
pub fn is_tag(number: u16) -> bool {
    matches!(number, 0x8100 | 0x88A8 | 0x9100)
}

#[inline]
pub fn ethernet2(s: &[u8]) -> Answer<u16> {
    whole(s, 14, Kind::Ethernet2, 0, Source::Slice)?;
    Ok(be16(s, 12))
}

#[inline]
pub fn vlan(s: &[u8], at: usize) -> Answer<u16> {
    let s = &s[at..];
    whole(s, 4, Kind::Vlan, at, Source::Slice)?;
    Ok(be16(s, 2))
}

pub struct Ip {
    pub len: usize,
    pub end: usize,
    pub source: Source,
    pub fragmented: bool,
    pub number: u8,
}

#[inline]
pub fn ipv4(s: &[u8], at: usize) -> Answer<Ip> {
    let s = &s[at..];
    whole(s, 20, Kind::Ipv4, at, Source::Slice)?;
    let version = s[0] >> 4;
    if version != 4 {
        return Err(Refusal::Ipv4Version { offset: at, version });
    }
    let ihl = s[0] & 15;
    if ihl < 5 {
        return Err(Refusal::SmallIhl { offset: at, ihl });
    }
    let len = ihl as usize * 4;
    whole(s, len, Kind::Ipv4, at, Source::Slice)?;
    let total = be16(s, 2) as usize;
    if total < len {
        let (required, have) = (len, total);
        return Err(Refusal::TooShort { offset: at, required, have, layer: Kind::Ipv4Packet, source: Source::Ipv4 });
    }
    whole(s, total, Kind::Ipv4Packet, at, Source::Slice)?;
    let fragmented = be16(s, 6) & 0x3fff != 0;
    Ok(Ip { len, end: at + total, source: Source::Ipv4, fragmented, number: s[9] })
}

#[inline]
pub fn ipv6(s: &[u8], at: usize) -> Answer<Ip> {
    let end = s.len();
    let s = &s[at..];
    whole(s, 40, Kind::Ipv6, at, Source::Slice)?;
    let version = s[0] >> 4;
    if version != 6 {
        return Err(Refusal::Ipv6Version { offset: at, version });
    }
    let payload = be16(s, 4) as usize;
    if payload == 0 {
        return Ok(Ip { len: 40, end, source: Source::Slice, fragmented: false, number: s[6] });
    }
    whole(s, 40 + payload, Kind::Ipv6Packet, at, Source::Slice)?;
    Ok(Ip { len: 40, end: at + 40 + payload, source: Source::Ipv6, fragmented: false, number: s[6] })
}

pub struct Ext {
    pub len: usize,
    pub number: u8,
    pub fragmenting: bool,
}

#[inline]
pub fn raw_ext(s: &[u8], kind: Kind, at: usize, source: Source) -> Answer<Ext> {
    whole(s, 8, kind, at, source)?;
    let len = (s[1] as usize + 1) * 8;
    whole(s, len, kind, at, source)?;
    Ok(Ext { len, number: s[0], fragmenting: false })
}

#[inline]
pub fn fragment(s: &[u8], at: usize, source: Source) -> Answer<Ext> {
    whole(s, 8, Kind::Fragment, at, source)?;
    Ok(Ext { len: 8, number: s[0], fragmenting: be16(s, 2) & 0xfff9 != 0 })
}

#[inline]
pub fn auth(s: &[u8], at: usize, source: Source) -> Answer<Ext> {
    whole(s, 12, Kind::Auth, at, source)?;
    if s[1] == 0 {
        return Err(Refusal::ZeroAuthLength { offset: at });
    }
    let len = (s[1] as usize + 2) * 4;
    whole(s, len, Kind::Auth, at, source)?;
    Ok(Ext { len, number: s[0], fragmenting: false })
}

/// The end of the datagram.
#[inline]
pub fn udp(s: &[u8], at: usize, source: Source) -> Answer<usize> {
    whole(s, 8, Kind::Udp, at, source)?;
    let length = be16(s, 4) as usize;
    if length == 0 {
        return Ok(s.len());
    }
    if length < 8 {
        let (required, have) = (8, length);
        return Err(Refusal::TooShort { offset: at, required, have, layer: Kind::Udp, source: Source::Udp });
    }
    whole(s, length, Kind::UdpPayload, at, source)?;
    Ok(length)
}

/// The length of the header.
#[inline]
pub fn tcp(s: &[u8], at: usize, source: Source) -> Answer<usize> {
    whole(s, 20, Kind::Tcp, at, source)?;
    let value = s[12] >> 4;
    if value < 5 {
        return Err(Refusal::SmallDataOffset { offset: at, value });
    }
    let len = value as usize * 4;
    whole(s, len, Kind::Tcp, at, source)?;
    Ok(len)
}

/// The extension that a number names, at a place of an IPv6 chain; none where the chain ends.
#[inline]
pub fn extension(s: &[u8], number: u8, first: bool, at: usize, source: Source) -> Answer<Option<(Kind, Ext)>> {
    Ok(Some(match number {
        0 if !first => return Err(Refusal::HopByHopNotAtStart { offset: at }),
        0 => (Kind::HopByHop, raw_ext(s, Kind::HopByHop, at, source)?),
        43 => (Kind::Routing, raw_ext(s, Kind::Routing, at, source)?),
        60 => (Kind::Destination, raw_ext(s, Kind::Destination, at, source)?),
        44 => (Kind::Fragment, fragment(s, at, source)?),
        51 => (Kind::Auth, auth(s, at, source)?),
        _ => return Ok(None),
    }))
}

fn span(at: usize, end: usize) -> Span {
    Span { at, len: end - at }
}

/// A whole Ethernet II frame.
#[inline(never)]
pub fn slice(s: &[u8]) -> Answer<Sliced> {
    slice_inlined(s)
}

#[inline(always)]
pub fn slice_inlined(s: &[u8]) -> Answer<Sliced> {
    let link = Some(Header { at: 0, len: 14, kind: Kind::Ethernet2 });
    let mut number = ethernet2(s)?;
    let mut at = 14;
    let mut tags = [Span { at: 0, len: 0 }; TAG_LIMIT];
    let mut count = 0;
    while is_tag(number) && count < TAG_LIMIT {
        number = vlan(s, at)?;
        tags[count] = Span { at, len: 4 };
        count += 1;
        at += 4;
    }
    let begin = at;
    let (kind, ip) = match number {
        0x0800 => (Kind::Ipv4, ipv4(s, at)?),
        0x86DD => (Kind::Ipv6, ipv6(s, at)?),
        _ => {
            let stop = if is_tag(number) { Stop::TagsFull } else { Stop::EtherTypeNotOpened };
            let ending = Ending { payload: span(at, s.len()), number: Number::EtherType(number), stop };
            return Ok(Sliced { link, tags, count, net: None, transport: None, ending });
        }
    };
    let (end, source) = (ip.end, ip.source);
    let (mut number, mut fragmented) = (ip.number, ip.fragmented);
    at += ip.len;
    let from = at;
    if kind == Kind::Ipv4 {
        if number == 51 {
            let x = auth(&s[at..end], at, source)?;
            at += x.len;
            number = x.number;
        }
    } else {
        let mut first = true;
        while let Some((_, x)) = extension(&s[at..end], number, first, at, source)? {
            at += x.len;
            number = x.number;
            fragmented |= x.fragmenting;
            first = false;
        }
    }
    let header = Header { at: begin, len: ip.len, kind };
    let net = Some(Net { header, exts: span(from, at), fragmented });
    let unopened = |stop| (None, Ending { payload: span(at, end), number: Number::Ip(number), stop });
    let opened = |kind, len, end| {
        let ending = Ending { payload: span(at + len, end), number: Number::Ip(number), stop: Stop::TransportRead };
        (Some(Header { at, len, kind }), ending)
    };
    let (transport, ending) = match number {
        _ if fragmented => unopened(Stop::Fragment),
        17 => opened(Kind::Udp, 8, at + udp(&s[at..end], at, source)?),
        6 => opened(Kind::Tcp, tcp(&s[at..end], at, source)?, end),
        _ => unopened(Stop::IpNumberNotOpened),
    };
    Ok(Sliced { link, tags, count, net, transport, ending })
}
