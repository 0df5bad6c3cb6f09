//! The Internet checksum: F10, F11, published vectors, and the folding rule over long inputs.

use oracle::Sum;

fn sum(slice: &[u8]) -> Sum {
    Sum::new().add_slice(slice)
}

#[test]
fn f10() {
    let words = [0x00, 0x01, 0xF2, 0x03, 0xF4, 0xF5, 0xF6, 0xF7];
    assert_eq!(sum(&words).ones_complement(), 0x220D);
    assert_eq!(Sum::new().ones_complement(), 0xFFFF);
    assert_eq!(sum(&[]).ones_complement(), 0xFFFF);
    assert_eq!(sum(&[0xFF, 0xFF]).ones_complement(), 0);
    assert_eq!(sum(&[0xFF, 0xFF]).ones_complement_with_no_zero(), 0xFFFF);
}

#[test]
fn f11() {
    let apart = Sum::new().add_slice(&[1]).add_slice(&[2]);
    assert_eq!(apart.ones_complement(), 0xFCFF);
    assert_eq!(sum(&[1, 2]).ones_complement(), 0xFEFD);
}

/// An IPv4 header with its own checksum in place sums to all ones.
#[test]
fn an_ipv4_header() {
    let mut header = [
        0x45, 0, 0, 0x73, 0, 0, 0x40, 0, 0x40, 0x11, 0, 0, 192, 168, 0, 1, 192, 168, 0, 199,
    ];
    assert_eq!(sum(&header).ones_complement(), 0xB861);
    header[10..12].copy_from_slice(&0xB861_u16.to_be_bytes());
    assert_eq!(sum(&header).ones_complement(), 0);
}

#[test]
fn no_zero_differs_at_zero_only() {
    for word in 0..=0xFFFF_u16 {
        let one = sum(&word.to_be_bytes());
        assert_eq!(one.ones_complement(), !word);
        let want = if word == 0xFFFF { 0xFFFF } else { !word };
        assert_eq!(one.ones_complement_with_no_zero(), want);
    }
}

/// The rule for the whole total, taken at once over a long slice and over parts of even length.
#[test]
fn folding_as_it_goes_is_folding_at_the_end() {
    let bytes: Vec<u8> = (0..100_001_u32).map(|i| (i * 7 + i / 251) as u8).collect();
    for length in [1, 2, 3, 255, 4096, 65_535, 100_000, 100_001] {
        let slice = &bytes[..length];
        let total: u64 = (0..length.div_ceil(2))
            .map(|i| {
                let low = slice.get(2 * i + 1).copied().unwrap_or(0);
                u64::from(slice[2 * i]) * 256 + u64::from(low)
            })
            .sum();
        let folded = if total == 0 {
            0
        } else {
            (total - 1) % 65_535 + 1
        };
        let want = u16::try_from(65_535 - folded).unwrap();
        assert_eq!(sum(slice).ones_complement(), want);
        let parts = slice.chunks(38).fold(Sum::new(), Sum::add_slice);
        assert_eq!(parts.ones_complement(), want);
    }
    assert_eq!(sum(&[0xFF; 1000]).ones_complement(), 0);
}
