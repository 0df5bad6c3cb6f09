//! The frames that are timed.

pub struct Frame {
    pub name: &'static str,
    pub bytes: Vec<u8>,
}

fn ethernet(number: u16) -> Vec<u8> {
    let mut s = vec![2, 0, 0, 0, 0, 1, 2, 0, 0, 0, 0, 2];
    s.extend(number.to_be_bytes());
    s
}

fn tag(s: &mut Vec<u8>, number: u16) {
    s.extend([0, 7]);
    s.extend(number.to_be_bytes());
}

fn ipv4(s: &mut Vec<u8>, total: u16, flags: u16, number: u8) {
    let [t1, t0] = total.to_be_bytes();
    let [f1, f0] = flags.to_be_bytes();
    s.extend([0x45, 0, t1, t0, 0, 1, f1, f0, 64, number, 0, 0, 10, 0, 0, 1, 10, 0, 0, 2]);
}

fn ipv6(s: &mut Vec<u8>, payload: u16, number: u8) {
    let [p1, p0] = payload.to_be_bytes();
    s.extend([0x60, 0, 0, 0, p1, p0, number, 64]);
    s.extend([0xfd; 32]);
}

/// A routing or destination header of `units` times eight bytes.
fn ext(s: &mut Vec<u8>, number: u8, units: usize) {
    let end = s.len() + 8 * units;
    s.extend([number, (units - 1) as u8]);
    s.resize(end, 0);
}

fn udp(s: &mut Vec<u8>, length: u16) {
    let [l1, l0] = length.to_be_bytes();
    s.extend([0x13, 0x88, 0x13, 0x89, l1, l0, 0, 0]);
}

fn tcp(s: &mut Vec<u8>) {
    s.extend([0x13, 0x88, 0, 80, 0, 0, 0, 1, 0, 0, 0, 2, 0x50, 0x10, 0x20, 0, 0, 0, 0, 0]);
}

/// Ethernet, IPv4 and UDP, of `size` bytes in all.
pub fn plain(size: usize) -> Vec<u8> {
    let mut s = ethernet(0x0800);
    ipv4(&mut s, (size - 14) as u16, 0x4000, 17);
    udp(&mut s, (size - 34) as u16);
    s.resize(size, 9);
    s
}

/// Ethernet, IPv6, `n` extensions of eight bytes in turn of two kinds, UDP with 16 bytes.
pub fn chain(n: usize) -> Vec<u8> {
    let mut s = ethernet(0x86DD);
    ipv6(&mut s, (8 * n + 24) as u16, if n == 0 { 17 } else { 60 });
    for i in 0..n {
        ext(&mut s, if i + 1 == n { 17 } else if i % 2 == 0 { 43 } else { 60 }, 1);
    }
    udp(&mut s, 24);
    s.extend([9; 16]);
    s
}

fn tagged() -> Vec<u8> {
    let mut s = ethernet(0x8100);
    tag(&mut s, 0x0800);
    ipv4(&mut s, 1482, 0x4000, 6);
    tcp(&mut s);
    s.resize(1500, 9);
    s
}

fn extended() -> Vec<u8> {
    let mut s = ethernet(0x86DD);
    ipv6(&mut s, 8 + 16 + 8 + 108, 0);
    ext(&mut s, 43, 1);
    ext(&mut s, 60, 2);
    ext(&mut s, 17, 1);
    udp(&mut s, 108);
    s.resize(s.len() + 100, 9);
    s
}

fn two_tags() -> Vec<u8> {
    let mut s = ethernet(0x88A8);
    tag(&mut s, 0x8100);
    tag(&mut s, 0x86DD);
    ipv6(&mut s, 320, 6);
    tcp(&mut s);
    s.resize(s.len() + 300, 9);
    s
}

fn fragment() -> Vec<u8> {
    let mut s = ethernet(0x0800);
    ipv4(&mut s, 520, 0x2000, 17);
    s.resize(534, 9);
    s
}

/// Ethernet alone.
pub fn arp() -> Vec<u8> {
    let mut s = ethernet(0x0806);
    s.resize(60, 1);
    s
}

/// IPv4 that declares 60 bytes, of which 26 are there.
fn cut_packet() -> Vec<u8> {
    let mut s = ethernet(0x0800);
    ipv4(&mut s, 60, 0, 17);
    s.resize(40, 1);
    s
}

/// A TCP header of which 12 bytes are there.
fn cut_tcp() -> Vec<u8> {
    let mut s = ethernet(0x0800);
    ipv4(&mut s, 32, 0, 6);
    tcp(&mut s);
    s.truncate(46);
    s
}

/// Bytes to be summed up.
pub fn lengths() -> Vec<Frame> {
    [("20 bytes", 20), ("64 bytes", 64), ("200 bytes", 200), ("1,500 bytes", 1500), ("65,535 bytes", 65535)]
        .map(|(name, n)| Frame { name, bytes: (0..n).map(|i: u32| (i * 37 + 11) as u8).collect() })
        .into()
}

pub fn mix() -> Vec<Frame> {
    [
        ("IPv4/UDP 200", plain(200)),
        ("tag, IPv4/TCP 1500", tagged()),
        ("IPv6, 3 exts, UDP", extended()),
        ("2 tags, IPv6/TCP", two_tags()),
        ("IPv4 fragment", fragment()),
        ("ARP", arp()),
        ("cut IPv4 packet", cut_packet()),
        ("cut TCP header", cut_tcp()),
        ("IPv6, 1000 exts", chain(1000)),
    ]
    .map(|(name, bytes)| Frame { name, bytes })
    .into()
}
