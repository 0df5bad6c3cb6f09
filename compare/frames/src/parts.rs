//! Headers with fixed contents, as bytes: the building blocks of the structured cases.

/// The three types of tags.
pub(crate) const TAG_TYPES: [u16; 3] = [0x8100, 0x88A8, 0x9100];

/// A number cut to 16 bits, high byte first.
pub(crate) fn be(number: usize) -> [u8; 2] {
    (number as u16).to_be_bytes()
}

/// An Ethernet header and `tags` tags of the three types in turn.
pub(crate) fn link(tags: usize, ether_type: u16) -> Vec<u8> {
    let mut bytes = vec![2, 0, 0, 0, 0, 1, 2, 0, 0, 0, 0, 2];
    for tag in 0..tags {
        bytes.extend(TAG_TYPES[tag % 3].to_be_bytes());
        bytes.extend([0x20, tag as u8]);
    }
    bytes.extend(ether_type.to_be_bytes());
    bytes
}

/// An IPv4 header as long as its IHL says, but at least 20 bytes.
pub(crate) fn ipv4(ihl: usize, protocol: u8, fragment: u16, total: usize) -> Vec<u8> {
    let mut bytes = vec![0; (ihl * 4).max(20)];
    bytes[0] = 0x40 | ihl as u8;
    bytes[2..4].copy_from_slice(&be(total));
    bytes[6..8].copy_from_slice(&fragment.to_be_bytes());
    bytes[8] = 64;
    bytes[9] = protocol;
    bytes
}

/// An IPv6 header.
pub(crate) fn ipv6(next: u8, payload: usize) -> Vec<u8> {
    let mut bytes = vec![0; 40];
    bytes[0] = 0x60;
    bytes[4..6].copy_from_slice(&be(payload));
    bytes[6] = next;
    bytes[7] = 64;
    bytes
}

/// A hop-by-hop, routing or destination header of `(units + 1) * 8` bytes.
pub(crate) fn raw(next: u8, units: u8) -> Vec<u8> {
    let mut bytes = vec![0; (usize::from(units) + 1) * 8];
    bytes[0] = next;
    bytes[1] = units;
    bytes
}

/// A fragment header.
pub(crate) fn fragment(next: u8, word: u16) -> Vec<u8> {
    let [high, low] = word.to_be_bytes();
    vec![next, 0, high, low, 0, 0, 0, 7]
}

/// An AUTH header of `(units + 2) * 4` bytes, but at least 12.
pub(crate) fn auth(next: u8, units: u8) -> Vec<u8> {
    let mut bytes = vec![0; ((usize::from(units) + 2) * 4).max(12)];
    bytes[0] = next;
    bytes[1] = units;
    bytes
}

/// A UDP header.
pub(crate) fn udp(length: usize) -> Vec<u8> {
    let mut bytes = vec![0x10, 0, 0x20, 0, 0, 0, 0, 0];
    bytes[4..6].copy_from_slice(&be(length));
    bytes
}

/// A TCP header as long as its data offset says, but at least 20 bytes; the options are kind 1.
pub(crate) fn tcp(data_offset: u8) -> Vec<u8> {
    let mut bytes = vec![1; (usize::from(data_offset) * 4).max(20)];
    bytes[12] = data_offset << 4;
    bytes
}
