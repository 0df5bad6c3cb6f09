// Ours, not etherparse's: fills in `IpFragOffset`, which the shown IP headers hold.

crate::helpers::field!(
    IpFragOffset,
    u16,
    "The thirteen bits of the fragment offset (RFC 791, RFC 8200)."
);
