// Ours, not etherparse's: fills in `LenSource` from its uses in the shown files and document 01.

/// What a length comes from.
#[derive(Clone, Copy, Debug, Eq, PartialEq)]
pub enum LenSource {
    /// The slice's own length.
    Slice,
    /// MACsec's short length; the stub never sets it.
    MacsecShortLength,
    /// IPv4's total length.
    Ipv4HeaderTotalLen,
    /// IPv6's payload length.
    Ipv6HeaderPayloadLen,
    /// UDP's length: no shown file names it, document 01 does ("UDP length").
    UdpHeaderLen,
}
