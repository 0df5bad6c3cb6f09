//! Frames put together by hand for the tests, and the answers they are held against.

use oracle::{Entry, Header, Kind, Layer, Reason, Refusal, Source};

/// The parts, one after the other.
pub fn join(parts: &[&[u8]]) -> Vec<u8> {
    parts.concat()
}

/// An Ethernet header, addresses zero, and `tags` tags of the three types in turn.
pub fn link(tags: usize, ether_type: u16) -> Vec<u8> {
    let mut frame = vec![0; 12];
    for tag in 0..tags {
        frame.extend([0x8100_u16, 0x88A8, 0x9100][tag % 3].to_be_bytes());
        frame.extend([0, 0]);
    }
    frame.extend(ether_type.to_be_bytes());
    frame
}

/// An IPv4 header with an IHL of 5.
pub fn ipv4(protocol: u8, total: usize) -> Vec<u8> {
    let mut header = vec![0; 20];
    header[0] = 0x45;
    header[2..4].copy_from_slice(&u16::try_from(total).unwrap().to_be_bytes());
    header[9] = protocol;
    header
}

/// An IPv6 header.
pub fn ipv6(next: u8, payload: usize) -> Vec<u8> {
    let mut header = vec![0; 40];
    header[0] = 0x60;
    header[4..6].copy_from_slice(&u16::try_from(payload).unwrap().to_be_bytes());
    header[6] = next;
    header
}

/// A whole hop-by-hop, routing or destination header.
pub fn raw(next: u8, length_byte: u8) -> Vec<u8> {
    let mut header = vec![0; (usize::from(length_byte) + 1) * 8];
    header[0] = next;
    header[1] = length_byte;
    header
}

/// A fragment header; `word` holds the offset, the two reserved bits and M.
pub fn fragment(next: u8, word: u16) -> Vec<u8> {
    let [high, low] = word.to_be_bytes();
    vec![next, 0, high, low, 0, 0, 0, 0]
}

/// A whole AUTH header; 12 bytes where the length byte is 0.
pub fn auth(next: u8, length_byte: u8) -> Vec<u8> {
    let mut header = vec![0; ((usize::from(length_byte) + 2) * 4).max(12)];
    header[0] = next;
    header[1] = length_byte;
    header
}

/// A UDP header.
pub fn udp(length: usize) -> Vec<u8> {
    let mut header = vec![0; 8];
    header[4..6].copy_from_slice(&u16::try_from(length).unwrap().to_be_bytes());
    header
}

/// A whole TCP header; 20 bytes where the data offset is below 5.
pub fn tcp(data_offset: u8) -> Vec<u8> {
    let mut header = vec![0; (usize::from(data_offset) * 4).max(20)];
    header[12] = data_offset << 4;
    header
}

/// Every way to an IP header: its own entry, and Ethernet with no tag up to three.
pub fn ways(own: Entry) -> Vec<(Entry, Vec<u8>)> {
    let ether_type = match own {
        Entry::Ipv4 => 0x0800,
        _ => 0x86DD,
    };
    let tagged = (0..=3).map(|tags| (Entry::Ethernet, link(tags, ether_type)));
    std::iter::once((own, Vec::new())).chain(tagged).collect()
}

/// A room after an IP header, made `have` bytes long in one of the ways there are.
pub struct Room {
    pub entry: Entry,
    pub frame: Vec<u8>,
    /// Where the room begins.
    pub at: usize,
    pub source: Source,
}

/// Every room of `content`'s first `have` bytes, zeros after: set by IPv4's total length, by IPv6's
/// payload length (each with and without padding behind) and by the slice under payload length 0.
pub fn rooms(next: u8, content: &[u8], have: usize) -> Vec<Room> {
    let mut rooms = ipv4_rooms(next, content, have);
    rooms.extend(ipv6_rooms(next, content, have));
    rooms
}

/// The rooms that IPv4's total length sets.
pub fn ipv4_rooms(next: u8, content: &[u8], have: usize) -> Vec<Room> {
    let header = ipv4(next, 20 + have);
    let padded = [(0, Source::Ipv4), (9, Source::Ipv4)];
    build(Entry::Ipv4, &header, &filled(content, have), &padded)
}

/// The rooms under IPv6.
pub fn ipv6_rooms(next: u8, content: &[u8], have: usize) -> Vec<Room> {
    let content = filled(content, have);
    let padded = [(0, Source::Ipv6), (9, Source::Ipv6)];
    let mut rooms = match have {
        // a payload length of 0 leaves the room to the slice
        0 => Vec::new(),
        _ => build(Entry::Ipv6, &ipv6(next, have), &content, &padded),
    };
    let slice = [(0, Source::Slice)];
    rooms.extend(build(Entry::Ipv6, &ipv6(next, 0), &content, &slice));
    rooms
}

fn filled(content: &[u8], have: usize) -> Vec<u8> {
    let mut bytes = content.to_vec();
    bytes.resize(have, 0);
    bytes
}

fn build(own: Entry, header: &[u8], content: &[u8], padded: &[(usize, Source)]) -> Vec<Room> {
    let mut rooms = Vec::new();
    for (entry, front) in ways(own) {
        for &(padding, source) in padded {
            rooms.push(Room {
                entry,
                frame: join(&[&front, header, content, &vec![0xFF; padding]]),
                at: front.len() + header.len(),
                source,
            });
        }
    }
    rooms
}

/// Refusal 1 of a header.
pub fn short(kind: Kind, offset: usize, need: (usize, usize), source: Source) -> Refusal {
    short_at(Layer::Header(kind), offset, need, source)
}

/// Refusal 1; `need` holds required and have.
pub fn short_at(layer: Layer, offset: usize, need: (usize, usize), source: Source) -> Refusal {
    Refusal {
        layer,
        offset,
        reason: Reason::TooShort {
            required: need.0,
            have: need.1,
            source,
        },
    }
}

/// Refusals 2 to 7.
pub fn refused(kind: Kind, offset: usize, reason: Reason) -> Refusal {
    Refusal {
        layer: Layer::Header(kind),
        offset,
        reason,
    }
}

/// A header's answer.
pub fn is(kind: Kind, offset: usize, length: usize) -> Header {
    Header {
        kind,
        offset,
        length,
    }
}
