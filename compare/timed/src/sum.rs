//! The Internet checksum's sum in Rust, written for the comparison of speed: a plain loop, two bytes a step. Right for slices of up to
//! 131,070 bytes, whose words can't come to more than 32 bits.

#[inline(never)]
pub fn sum(s: &[u8]) -> u16 {
    let mut sum = 0u32;
    let mut pairs = s.chunks_exact(2);
    for pair in &mut pairs {
        sum += u16::from_be_bytes([pair[0], pair[1]]) as u32;
    }
    if let [last] = pairs.remainder() {
        sum += (*last as u32) << 8;
    }
    while sum >> 16 != 0 {
        sum = (sum & 0xffff) + (sum >> 16);
    }
    sum as u16
}
