// Ours, not etherparse's: fills in `Ipv6FlowLabel`, which the shown IPv6 header holds.

crate::helpers::field!(
    Ipv6FlowLabel,
    u32,
    "The twenty bits of the flow label (RFC 8200)."
);
