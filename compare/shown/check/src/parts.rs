//! Headers put together by hand; bytes that nobody names are zero.

/// An Ethernet header and `tags` tags, the last one naming `ether_type`.
pub fn link(tags: usize, ether_type: u16) -> Vec<u8> {
    let mut bytes = vec![0; 12];
    for _ in 0..tags {
        bytes.extend([0x81, 0x00, 0, 0]);
    }
    bytes.extend(ether_type.to_be_bytes());
    bytes
}

/// An IPv4 header with an IHL of 5.
pub fn ipv4(protocol: u8, total: u16) -> Vec<u8> {
    let mut bytes = vec![0; 20];
    bytes[0] = 0x45;
    bytes[2..4].copy_from_slice(&total.to_be_bytes());
    bytes[9] = protocol;
    bytes
}

/// An IPv6 header.
pub fn ipv6(next: u8, payload: u16) -> Vec<u8> {
    let mut bytes = vec![0; 40];
    bytes[0] = 0x60;
    bytes[4..6].copy_from_slice(&payload.to_be_bytes());
    bytes[6] = next;
    bytes
}

/// Eight bytes of a hop-by-hop, routing or destination header.
pub fn raw(next: u8) -> Vec<u8> {
    vec![next, 0, 0, 0, 0, 0, 0, 0]
}

/// A fragment header; `word` holds offset, reserved bits and M.
pub fn fragment(next: u8, word: u16) -> Vec<u8> {
    let [high, low] = word.to_be_bytes();
    vec![next, 0, high, low, 0, 0, 0, 0]
}

/// Twelve bytes of AUTH.
pub fn auth(next: u8, length: u8) -> Vec<u8> {
    let mut bytes = vec![0; 12];
    bytes[..2].copy_from_slice(&[next, length]);
    bytes
}

/// A UDP header.
pub fn udp(length: u16) -> Vec<u8> {
    let mut bytes = vec![0; 8];
    bytes[4..6].copy_from_slice(&length.to_be_bytes());
    bytes
}

/// Twenty bytes of TCP.
pub fn tcp(data_offset: u8) -> Vec<u8> {
    let mut bytes = vec![0; 20];
    bytes[12] = data_offset << 4;
    bytes
}

/// An untagged frame of IPv4.
pub fn over_ipv4(protocol: u8, total: u16, content: &[u8]) -> Vec<u8> {
    [&link(0, 0x0800), &ipv4(protocol, total), content].concat()
}

/// An untagged frame of IPv6.
pub fn over_ipv6(next: u8, payload: u16, content: &[u8]) -> Vec<u8> {
    [&link(0, 0x86DD), &ipv6(next, payload), content].concat()
}

/// The bytes in hexadecimal; a run of ten zeros or more is counted.
pub fn hex(bytes: &[u8]) -> String {
    let mut text = Vec::new();
    let mut rest = bytes;
    while let Some(first) = rest.first() {
        let zeros = rest.iter().take_while(|&&byte| byte == 0).count();
        let step = if zeros < 10 {
            text.push(format!("{first:02x}"));
            1
        } else {
            text.push(format!("00*{zeros}"));
            zeros
        };
        rest = &rest[step..];
    }
    match text.is_empty() {
        true => "none".to_string(),
        false => text.join(" "),
    }
}
